package gateway_test

import (
	"bufio"
	"bytes"
	"context"
	"encoding/hex"
	"encoding/json"
	"errors"
	"fmt"
	"io"
	"log"
	"net"
	"net/http"
	"net/http/httptest"
	"reflect"
	"runtime"
	"strings"
	"sync"
	"testing"
	"time"

	"sealwax"
	"sealwax/client"
	"sealwax/gateway"
	"sealwax/ohttp"
)

// A fixture is a service behind an HTTP server, and what it logged.
type fixture struct {
	*testing.T
	service *gateway.Service
	server  *httptest.Server
	log     *logged
}

type logged struct {
	lock sync.Mutex
	text bytes.Buffer
}

func (l *logged) Write(b []byte) (int, error) {
	l.lock.Lock()
	defer l.lock.Unlock()
	return l.text.Write(b)
}

func (l *logged) String() string {
	l.lock.Lock()
	defer l.lock.Unlock()
	return l.text.String()
}

func start(t *testing.T, config gateway.Config) *fixture {
	t.Helper()
	f := &fixture{T: t, log: new(logged)}
	config.Log = log.New(f.log, "", 0)
	var err error
	if f.service, err = gateway.New(config); err != nil {
		t.Fatal(err)
	}
	f.server = httptest.NewUnstartedServer(nil)
	f.server.Config = f.service.Server()
	f.server.Start()
	t.Cleanup(f.server.Close)
	return f
}

func echo(_ context.Context, opened []byte) ([]byte, error) {
	return append([]byte("echo "), opened...), nil
}

// twoKeys are key 7 of X25519 with the pairs (1, 1) and (1, 3), and key 8 of P-256 with (3, 2).
func twoKeys(t *testing.T) []gateway.Key {
	return []gateway.Key{
		{ID: 7, Private: fresh(t, 0x0020), Pairs: []sealwax.Pair{{KDF: 1, AEAD: 1}, {KDF: 1, AEAD: 3}}},
		{ID: 8, Private: fresh(t, 0x0010), Pairs: []sealwax.Pair{{KDF: 3, AEAD: 2}}},
	}
}

func fresh(t *testing.T, kem sealwax.KEM) *ohttp.Key {
	t.Helper()
	key, err := ohttp.GenerateKey(kem)
	if err != nil {
		t.Fatal(err)
	}
	return key
}

type failer interface {
	Helper()
	Fatal(...any)
}

// seal seals a reading to a key with its first pair.
func seal(t failer, key gateway.Key, plain []byte) ([]byte, *ohttp.Sent) {
	t.Helper()
	request, sent, err := ohttp.Seal(sealwax.Choice{
		KeyID: key.ID, KEM: key.Private.KEM(), Pair: key.Pairs[0], PublicKey: key.Private.Public(),
	}, plain)
	if err != nil {
		t.Fatal(err)
	}
	return request, sent
}

// An answered is an HTTP response that was read.
type answered struct {
	status  int
	header  http.Header
	content []byte
}

// send sends a request and reads the response; like all that gives an error back it may be used beside the test's own goroutine.
func (f *fixture) send(ctx context.Context, method, path, contentType string, content []byte) (answered, error) {
	request, err := http.NewRequestWithContext(ctx, method, f.server.URL+path, bytes.NewReader(content))
	if err != nil {
		return answered{}, err
	}
	if contentType != "" {
		request.Header.Set("Content-Type", contentType)
	}
	response, err := f.server.Client().Do(request)
	if err != nil {
		return answered{}, err
	}
	return read(response)
}

func read(response *http.Response) (answered, error) {
	defer response.Body.Close()
	content, err := io.ReadAll(response.Body)
	return answered{response.StatusCode, response.Header, content}, err
}

func (f *fixture) do(method, path, contentType string, content []byte) answered {
	f.Helper()
	answer, err := f.send(context.Background(), method, path, contentType, content)
	if err != nil {
		f.Fatal(err)
	}
	return answer
}

func (f *fixture) post(request []byte) answered {
	f.Helper()
	return f.do(http.MethodPost, gateway.Path, ohttp.RequestType, request)
}

func (f *fixture) retire(id sealwax.KeyID) answered {
	f.Helper()
	return f.do(http.MethodPost, gateway.RetirePath, "application/x-www-form-urlencoded", []byte(fmt.Sprintf("key=%d", id)))
}

// open checks that an answer is a sealed one, and opens it.
func open(answer answered, sent *ohttp.Sent) ([]byte, error) {
	if answer.status != 200 || answer.header.Get("Content-Type") != ohttp.ResponseType {
		return nil, fmt.Errorf("no sealed response: %d %s %q", answer.status, answer.header.Get("Content-Type"), answer.content)
	}
	return sent.Open(answer.content)
}

func (f *fixture) opens(answer answered, sent *ohttp.Sent) []byte {
	f.Helper()
	plain, err := open(answer, sent)
	if err != nil {
		f.Fatal(err)
	}
	return plain
}

// beside sends a request beside the test and hands the opened answer to a channel, or the text of what went wrong.
func (f *fixture) beside(key gateway.Key, done chan<- string) {
	f.Helper()
	request, sent := seal(f, key, []byte("a reading"))
	go func() {
		answer, err := f.send(context.Background(), http.MethodPost, gateway.Path, ohttp.RequestType, request)
		if err != nil {
			done <- err.Error()
			return
		}
		plain, err := open(answer, sent)
		if err != nil {
			done <- err.Error()
			return
		}
		done <- string(plain)
	}()
}

// statuses are 01's: what goes out unprotected for each refusal number of admit. Number 14, and its status 500, cannot be reached
// through the service: package sealwax always lends a buffer that is large enough for info.
var statuses = map[int]int{1: 400, 2: 413, 3: 400, 4: 400, 5: 400, 6: 400, 7: 400, 8: 400, 9: 503}

// refusal tells the refusal number of an unprotected answer by its sentence, and says where the answer is not the one that 01 and
// RFC 9458, 5.3 want for it.
func refusal(answer answered) (int, error) {
	sentence := strings.TrimSuffix(string(answer.content), "\n")
	media := "text/plain; charset=utf-8"
	var problem struct{ Type, Title string }
	if answer.header.Get("Content-Type") == ohttp.ProblemType {
		if err := json.Unmarshal(answer.content, &problem); err != nil {
			return 0, err
		}
		sentence, media = problem.Title, ohttp.ProblemType
	}
	for number, status := range statuses {
		if sealwax.Sentence(number) != sentence {
			continue
		}
		want := ""
		if number >= 4 && number <= 8 {
			want = "https://iana.org/assignments/http-problem-types#ohttp-key"
		}
		if answer.status != status || answer.header.Get("Content-Type") != media || problem.Type != want {
			return number, fmt.Errorf("refusal %d went out as %+v", number, answer)
		}
		return number, nil
	}
	return 0, fmt.Errorf("no refusal: %d %q", answer.status, answer.content)
}

func (f *fixture) refuses(answer answered, number int) {
	f.Helper()
	if got, err := refusal(answer); got != number || err != nil {
		f.Fatalf("refused with %d, %v, want %d", got, err, number)
	}
}

// wantStatus checks the whole status, once all handlers that run have come to their end.
func (f *fixture) wantStatus(want gateway.Status) {
	f.Helper()
	f.server.Close()
	if want.Refused == nil {
		want.Refused = map[int]uint64{}
	}
	if got := f.service.Status(); !reflect.DeepEqual(got, want) {
		f.Errorf("the status is\n%+v, want\n%+v", got, want)
	}
}

func patch(request []byte, offset int, b ...byte) []byte {
	patched := append([]byte{}, request...)
	copy(patched[offset:], b)
	return patched
}

func TestAnswers(t *testing.T) {
	keys := twoKeys(t)
	f := start(t, gateway.Config{Keys: keys, Cap: 10, Target: echo})
	for _, key := range keys {
		for _, reading := range []string{"", "a reading", strings.Repeat("x", 60000)} {
			request, sent := seal(t, key, []byte(reading))
			answer := f.post(request)
			if plain := f.opens(answer, sent); string(plain) != "echo "+reading {
				t.Errorf("answered %q", plain)
			}
			if answer.header.Get("Content-Length") != fmt.Sprint(len(answer.content)) || answer.header.Get("Cache-Control") == "" {
				t.Errorf("header %v", answer.header)
			}
			// The same request again is another exchange, with another nonce.
			again := f.post(request)
			if plain := f.opens(again, sent); string(plain) != "echo "+reading {
				t.Errorf("answered %q", plain)
			}
			if bytes.Equal(again.content[:16], answer.content[:16]) {
				t.Error("a nonce twice")
			}
		}
	}
	f.wantStatus(gateway.Status{
		Cap: 10, LastTicket: 12, Keys: []gateway.KeyStatus{{7, 0x0020, 6, false}, {8, 0x0010, 6, false}},
		Tally: gateway.Tally{Answered: 12},
	})
}

func TestRefusals(t *testing.T) {
	keys := twoKeys(t)
	f := start(t, gateway.Config{Keys: keys, Cap: 1, Target: echo})
	good, sent := seal(t, keys[0], []byte("a reading"))
	other, _ := seal(t, keys[1], []byte("a reading"))
	for _, refused := range []struct {
		request []byte
		number  int
	}{
		{nil, 1},
		{good[:6], 1},
		{good[:54], 1},
		{other[:87], 1},
		{make([]byte, sealwax.LongestRequest+1), 2},
		{patch(good, 1, 0x00, 0x30), 3},
		{patch(good, 0, 9), 4},
		{patch(other, 0, 7), 5},
		{patch(good, 3, 0, 1, 0, 2), 6},
		{patch(good, 3, 0, 1, 0xff, 0xff), 6},
		{patch(other, 3, 0, 3, 0, 1), 6},
	} {
		f.refuses(f.post(refused.request), refused.number)
	}
	if plain := f.opens(f.post(good), sent); string(plain) != "echo a reading" {
		t.Errorf("answered %q", plain)
	}
	f.refuses(f.post(good), 8)
	if answer := f.retire(8); answer.status != 200 {
		t.Errorf("retire: %d %q", answer.status, answer.content)
	}
	f.refuses(f.post(other), 7)
	f.wantStatus(gateway.Status{
		Cap: 1, LastTicket: 1, Keys: []gateway.KeyStatus{{7, 0x0020, 1, false}, {8, 0x0010, 0, true}},
		Tally: gateway.Tally{Answered: 1, Refused: map[int]uint64{1: 4, 2: 1, 3: 1, 4: 1, 5: 1, 6: 3, 7: 1, 8: 1}},
	})
}

// What cannot be opened gets an unprotected 422, which is no refusal; the use stays charged.
func TestNotOpened(t *testing.T) {
	keys := twoKeys(t)
	f := start(t, gateway.Config{Keys: keys, Cap: 100, Target: echo})
	for i, key := range keys {
		request, _ := seal(t, key, []byte("a reading"))
		for _, damaged := range [][]byte{
			patch(request, len(request)-1, request[len(request)-1]^1),
			patch(request, 20, request[20]^1),      // enc
			append(patch(request, 0), 0),           // a byte too many
			request[:len(request)-1],               // one too few
			patch(request, 7, make([]byte, 32)...), // enc that is no point, or of low order
			patch(request, 7, bytes.Repeat([]byte{0xff}, 32)...),
		} {
			answer := f.post(damaged)
			if answer.status != 422 || answer.header.Get("Content-Type") == ohttp.ProblemType {
				t.Errorf("key %d: %d %q", i, answer.status, answer.content)
			}
		}
	}
	f.wantStatus(gateway.Status{
		Cap: 100, LastTicket: 12, Keys: []gateway.KeyStatus{{7, 0x0020, 6, false}, {8, 0x0010, 6, false}},
		Tally: gateway.Tally{NotOpened: 12},
	})
}

// What goes wrong after the opening is sealed, does not leak a place in the table, and is not logged.
func TestTargetErrorsAreSealed(t *testing.T) {
	const secret = "the reading that nobody logs"
	wait := make(chan struct{})
	defer close(wait)
	for name, c := range map[string]struct {
		target gateway.Target
		want   string
	}{
		"error":   {func(_ context.Context, b []byte) ([]byte, error) { return b, fmt.Errorf("failed on %s", b) }, "0141f6"},
		"panic":   {func(_ context.Context, b []byte) ([]byte, error) { panic(string(b)) }, "0141f6"},
		"goexit":  {func(context.Context, []byte) ([]byte, error) { runtime.Goexit(); return nil, nil }, "0141f6"},
		"long":    {func(context.Context, []byte) ([]byte, error) { return make([]byte, 65537), nil }, "0141f6"},
		"late":    {func(ctx context.Context, _ []byte) ([]byte, error) { <-ctx.Done(); return nil, ctx.Err() }, "0141f8"},
		"deaf":    {func(context.Context, []byte) ([]byte, error) { <-wait; return nil, nil }, "0141f8"},
		"nothing": {func(context.Context, []byte) ([]byte, error) { return nil, nil }, ""},
		"longest": {func(context.Context, []byte) ([]byte, error) { return make([]byte, 65536), nil }, strings.Repeat("00", 65536)},
	} {
		t.Run(name, func(t *testing.T) {
			keys := twoKeys(t)
			f := start(t, gateway.Config{Keys: keys, Cap: 10, Target: c.target, Wait: 200 * time.Millisecond})
			request, sent := seal(t, keys[1], []byte(secret))
			// A late answer and the end of the wait may come together: either error may be sealed then.
			plain := hex.EncodeToString(f.opens(f.post(request), sent))
			if plain != c.want && !(name == "late" && plain == "0141f6") {
				t.Errorf("sealed %.20s, want %.20s", plain, c.want)
			}
			f.wantStatus(gateway.Status{
				Cap: 10, LastTicket: 1, Keys: []gateway.KeyStatus{{7, 0x0020, 0, false}, {8, 0x0010, 1, false}},
				Tally: gateway.Tally{Answered: 1},
			})
			if strings.Contains(f.log.String(), "reading") || strings.Contains(f.log.String(), fmt.Sprintf("%x", secret)) {
				t.Errorf("logged: %s", f.log)
			}
		})
	}
}

// With 128 exchanges pending the next request gets 503, and is admitted when one of them is closed. Answers come in another order
// than requests.
func TestTableFull(t *testing.T) {
	asked := make(chan chan []byte, 128)
	keys := twoKeys(t)
	f := start(t, gateway.Config{Keys: keys, Cap: 1000, Target: func(context.Context, []byte) ([]byte, error) {
		answer := make(chan []byte)
		asked <- answer
		return <-answer, nil
	}})
	done := make(chan string, 128)
	var pending []chan []byte
	for i := 0; i < 128; i++ {
		f.beside(keys[0], done)
	}
	for i := 0; i < 128; i++ {
		pending = append(pending, <-asked)
	}
	if status := f.service.Status(); status.Pending != 128 {
		t.Fatalf("pending %d", status.Pending)
	}
	request, _ := seal(t, keys[0], nil)
	f.refuses(f.post(request), 9)
	pending[77] <- []byte("77")
	if got := <-done; got != "77" {
		t.Errorf("answered %q", got)
	}
	f.beside(keys[0], done)
	pending[77] = <-asked
	f.refuses(f.post(request), 9)
	for i := len(pending) - 1; i >= 0; i-- {
		pending[i] <- []byte(fmt.Sprint(i))
		if got := <-done; got != fmt.Sprint(i) {
			t.Errorf("answered %q, want %d", got, i)
		}
	}
	f.wantStatus(gateway.Status{
		Cap: 1000, LastTicket: 129, Keys: []gateway.KeyStatus{{7, 0x0020, 129, false}, {8, 0x0010, 0, false}},
		Tally: gateway.Tally{Answered: 129, Refused: map[int]uint64{9: 2}},
	})
}

// A client that goes away while the target works leaves no exchange pending, even where the target does not mind its context.
func TestClientGoesAway(t *testing.T) {
	for name, deaf := range map[string]bool{"minds": false, "deaf": true} {
		deaf := deaf
		t.Run(name, func(t *testing.T) {
			asked, end := make(chan struct{}), make(chan struct{})
			defer close(end)
			keys := twoKeys(t)
			f := start(t, gateway.Config{Keys: keys, Cap: 10, Target: func(ctx context.Context, _ []byte) ([]byte, error) {
				close(asked)
				if deaf {
					<-end
				} else {
					<-ctx.Done()
				}
				return []byte("too late"), nil
			}})
			begin := time.Now()
			ctx, cancel := context.WithCancel(context.Background())
			request, _ := seal(t, keys[0], []byte("a reading"))
			go func() { <-asked; cancel() }()
			answer, err := f.send(ctx, http.MethodPost, gateway.Path, ohttp.RequestType, request)
			if !errors.Is(err, context.Canceled) {
				t.Errorf("%v, %v", answer, err)
			}
			f.wantStatus(gateway.Status{
				Cap: 10, LastTicket: 1, Keys: []gateway.KeyStatus{{7, 0x0020, 1, false}, {8, 0x0010, 0, false}},
				Tally: gateway.Tally{Abandoned: 1},
			})
			if took := time.Since(begin); took > 20*time.Second {
				t.Errorf("abandoned after %v, when the wait for the target was over", took)
			}
		})
	}
}

// raw sends bytes to the server as they are and reads one response.
func (f *fixture) raw(finish bool, parts ...string) answered {
	f.Helper()
	connection, err := net.Dial("tcp", f.server.Listener.Addr().String())
	if err != nil {
		f.Fatal(err)
	}
	defer connection.Close()
	if err := connection.SetDeadline(time.Now().Add(20 * time.Second)); err != nil {
		f.Fatal(err)
	}
	if _, err := io.WriteString(connection, strings.Join(parts, "")); err != nil {
		f.Fatal(err)
	}
	if finish {
		if err := connection.(*net.TCPConn).CloseWrite(); err != nil {
			f.Fatal(err)
		}
	}
	response, err := http.ReadResponse(bufio.NewReader(connection), nil)
	if err != nil {
		f.Fatal(err)
	}
	answer, err := read(response)
	if err != nil {
		f.Fatal(err)
	}
	return answer
}

const rawHead = "POST " + gateway.Path + " HTTP/1.1\r\nHost: gateway\r\nContent-Type: " + ohttp.RequestType + "\r\n"

// A content above 65,536 bytes is refused before it has come to its end.
func TestOversize(t *testing.T) {
	keys := twoKeys(t)
	f := start(t, gateway.Config{Keys: keys, Cap: 10, Target: func(_ context.Context, b []byte) ([]byte, error) {
		return []byte(fmt.Sprint(len(b))), nil
	}})
	announced := f.raw(false, rawHead, "Content-Length: 1000000000\r\n\r\n", strings.Repeat("x", 65538))
	f.refuses(announced, 2)
	chunked := f.raw(false, rawHead, "Transfer-Encoding: chunked\r\n\r\n", "20000\r\n", strings.Repeat("x", 65538))
	f.refuses(chunked, 2)
	// 65,536 bytes are a request, 65,537 are none.
	longest, sent := seal(t, keys[0], make([]byte, sealwax.LongestRequest-7-32-16))
	if plain := f.opens(f.post(longest), sent); string(plain) != "65481" {
		t.Errorf("answered %q", plain)
	}
	f.refuses(f.post(append(longest, 0)), 2)
	f.wantStatus(gateway.Status{
		Cap: 10, LastTicket: 1, Keys: []gateway.KeyStatus{{7, 0x0020, 1, false}, {8, 0x0010, 0, false}},
		Tally: gateway.Tally{Answered: 1, Refused: map[int]uint64{2: 3}},
	})
}

// What is no request for the gateway never comes to the library.
func TestNoRequests(t *testing.T) {
	keys := twoKeys(t)
	f := start(t, gateway.Config{Keys: keys, Cap: 10, Target: echo})
	request, sent := seal(t, keys[0], []byte("a reading"))
	for _, c := range []struct {
		method, path, contentType string
		status                    int
		field, value              string
	}{
		{"POST", gateway.Path, "", 415, "Accept", ohttp.RequestType},
		{"POST", gateway.Path, "message/ohttp-res", 415, "Accept", ohttp.RequestType},
		{"POST", gateway.Path, "application/octet-stream", 415, "Accept", ohttp.RequestType},
		{"POST", gateway.Path, "message/ohttp-req;;", 415, "Accept", ohttp.RequestType},
		{"PUT", gateway.Path, ohttp.RequestType, 405, "Allow", "GET, HEAD, POST"},
		{"DELETE", gateway.Path, "", 405, "Allow", "GET, HEAD, POST"},
		{"POST", gateway.StatusPath, "", 405, "Allow", "GET, HEAD"},
		{"GET", gateway.RetirePath, "", 405, "Allow", "POST"},
		{"POST", "/", ohttp.RequestType, 404, "", ""},
		{"GET", gateway.Path + "/keys", "", 404, "", ""},
	} {
		answer := f.do(c.method, c.path, c.contentType, request)
		if answer.status != c.status || answer.header.Get(c.field) != c.value {
			t.Errorf("%+v got %d %v", c, answer.status, answer.header)
		}
	}
	if answer := f.raw(true, rawHead, "Content-Length: 100\r\n\r\n", "cut off"); answer.status != 400 {
		t.Errorf("content cut off: %d", answer.status)
	}
	for _, expectation := range []string{"100-continue", "something"} {
		answer := f.raw(false, rawHead, "Expect: "+expectation+"\r\nContent-Length: 100\r\n\r\n")
		if answer.status != 417 {
			t.Errorf("expect %s: %d", expectation, answer.status)
		}
	}
	// A media type may be written otherwise.
	answer := f.do("POST", gateway.Path, "Message/OHTTP-req; a=b", request)
	if plain := f.opens(answer, sent); string(plain) != "echo a reading" {
		t.Errorf("answered %q", plain)
	}
	f.wantStatus(gateway.Status{
		Cap: 10, LastTicket: 1, Keys: []gateway.KeyStatus{{7, 0x0020, 1, false}, {8, 0x0010, 0, false}},
		Tally: gateway.Tally{Answered: 1},
	})
}

// The list has the keys that take requests: none that is retired or used up.
func TestKeyList(t *testing.T) {
	keys := twoKeys(t)
	f := start(t, gateway.Config{Keys: keys, Cap: 1, Target: echo})
	want := func(left ...gateway.Key) {
		t.Helper()
		var configurations []sealwax.Configuration
		for _, key := range left {
			configurations = append(configurations, sealwax.Configuration{
				ID: key.ID, KEM: key.Private.KEM(), PublicKey: key.Private.Public(), Pairs: key.Pairs,
			})
		}
		list, err := sealwax.WriteList(configurations)
		if err != nil {
			t.Fatal(err)
		}
		answer := f.do("GET", gateway.Path, "", nil)
		if answer.status != 200 || answer.header.Get("Content-Type") != ohttp.KeysType || !bytes.Equal(answer.content, list) {
			t.Errorf("list: %d %v %x", answer.status, answer.header, answer.content)
		}
		if head := f.do("HEAD", gateway.Path, "", nil); head.status != 200 || head.header.Get("Content-Type") != ohttp.KeysType {
			t.Errorf("HEAD: %d %v", head.status, head.header)
		}
	}
	want(keys...)
	request, sent := seal(t, keys[0], nil)
	f.opens(f.post(request), sent)
	want(keys[1])
	f.retire(8)
	if answer := f.do("GET", gateway.Path, "", nil); answer.status != 503 {
		t.Errorf("list: %d %v %x", answer.status, answer.header, answer.content)
	}
}

// A key is retired while an exchange is pending: that one is answered, the next is refused.
func TestRetire(t *testing.T) {
	asked, answer := make(chan struct{}), make(chan struct{})
	keys := twoKeys(t)
	f := start(t, gateway.Config{Keys: keys, Cap: 10, Target: func(context.Context, []byte) ([]byte, error) {
		close(asked)
		<-answer
		return []byte("answer"), nil
	}})
	request, _ := seal(t, keys[0], nil)
	done := make(chan string, 1)
	f.beside(keys[0], done)
	<-asked
	if answer := f.retire(7); answer.status != 200 || string(answer.content) != "key 7 retired\n" {
		t.Errorf("%d %q", answer.status, answer.content)
	}
	f.refuses(f.post(request), 7)
	close(answer)
	if got := <-done; got != "answer" {
		t.Errorf("answered %q", got)
	}
	if answer := f.retire(7); answer.status != 409 {
		t.Errorf("twice: %d %q", answer.status, answer.content)
	}
	if answer := f.retire(9); answer.status != 404 {
		t.Errorf("no such key: %d %q", answer.status, answer.content)
	}
	for _, form := range []string{"", "key=", "key=256", "key=-1", "key=seven", "other=7", "key=" + strings.Repeat("0", 2000) + "8"} {
		answer := f.do("POST", gateway.RetirePath, "application/x-www-form-urlencoded", []byte(form))
		if answer.status != 400 {
			t.Errorf("%.20s: %d %q", form, answer.status, answer.content)
		}
	}
	f.wantStatus(gateway.Status{
		Cap: 10, LastTicket: 1, Keys: []gateway.KeyStatus{{7, 0x0020, 1, true}, {8, 0x0010, 0, false}},
		Tally: gateway.Tally{Answered: 1, Refused: map[int]uint64{7: 1}},
	})
}

func TestStatusPage(t *testing.T) {
	keys := twoKeys(t)
	f := start(t, gateway.Config{Keys: keys, Cap: 2, Target: echo})
	request, sent := seal(t, keys[1], nil)
	f.opens(f.post(request), sent)
	f.post(patch(request, len(request)-1, request[len(request)-1]^1))
	f.refuses(f.post(request), 8)
	f.refuses(f.post(nil), 1)
	f.refuses(f.post(nil), 1)
	f.retire(7)
	want := gateway.Status{
		Cap: 2, LastTicket: 2, Keys: []gateway.KeyStatus{{7, 0x0020, 0, true}, {8, 0x0010, 2, false}},
		Tally: gateway.Tally{Answered: 1, NotOpened: 1, Refused: map[int]uint64{1: 2, 8: 1}},
	}
	page := f.do("GET", gateway.StatusPath, "", nil)
	if page.status != 200 || page.header.Get("Content-Type") != "text/plain; charset=utf-8" || string(page.content) != `last ticket 2, 0 pending
key 7, KEM 0x0020: 0 of 2 uses, retired
key 8, KEM 0x0010: 2 of 2 uses
answered 1, not opened 1, abandoned 0
refused with 1, request or response too short: 2
refused with 8, key used up: 1
` {
		t.Errorf("%d %v\n%s", page.status, page.header, page.content)
	}
	if got := f.jsonStatus(); !reflect.DeepEqual(got, want) {
		t.Errorf("the page has\n%+v, want\n%+v", got, want)
	}
	f.wantStatus(want)
}

func (f *fixture) jsonStatus() gateway.Status {
	f.Helper()
	request := httptest.NewRequest("GET", gateway.StatusPath, nil)
	request.Header.Set("Accept", "application/json")
	recorder := httptest.NewRecorder()
	f.service.ServeHTTP(recorder, request)
	if recorder.Code != 200 || recorder.Header().Get("Content-Type") != "application/json" {
		f.Fatalf("%d %v", recorder.Code, recorder.Header())
	}
	var status gateway.Status
	if err := json.Unmarshal(recorder.Body.Bytes(), &status); err != nil {
		f.Fatal(err)
	}
	return status
}

func TestSetupRefused(t *testing.T) {
	keys := twoKeys(t)
	for number, config := range map[int]gateway.Config{
		sealwax.DuplicateKeyID: {Keys: []gateway.Key{keys[0], keys[0]}, Cap: 1},
		sealwax.CapOutOfRange:  {Keys: keys},
	} {
		if _, err := gateway.New(config); !sealwax.IsRefusal(err, number) {
			t.Errorf("%v, want refusal %d", err, number)
		}
	}
}

// The time to write covers the time to read and the wait for the target, or a late answer would not go out.
func TestTimeouts(t *testing.T) {
	service, err := gateway.New(gateway.Config{Keys: twoKeys(t), Cap: 1, Target: echo, Wait: time.Minute})
	if err != nil {
		t.Fatal(err)
	}
	server := service.Server()
	if server.WriteTimeout <= server.ReadTimeout+time.Minute {
		t.Errorf("%v to write, %v to read", server.WriteTimeout, server.ReadTimeout)
	}
	if server.ReadTimeout == 0 || server.ReadHeaderTimeout == 0 || server.IdleTimeout == 0 {
		t.Errorf("%+v", server)
	}
}

// Every KEM with every KDF and AEAD, by the client and back.
func TestSuites(t *testing.T) {
	var keys []gateway.Key
	for i, kem := range ohttp.KEMs {
		keys = append(keys, gateway.Key{ID: sealwax.KeyID(i), Private: fresh(t, kem), Pairs: ohttp.Pairs})
	}
	f := start(t, gateway.Config{Keys: keys, Cap: 9, Target: echo})
	want := gateway.Status{Cap: 9, LastTicket: 45, Tally: gateway.Tally{Answered: 45}}
	for i, kem := range ohttp.KEMs {
		for _, pair := range ohttp.Pairs {
			c := client.New(f.server.URL+gateway.Path, f.server.URL+gateway.Path)
			c.KEMs, c.Pairs = []sealwax.KEM{kem}, []sealwax.Pair{pair}
			exchange, err := c.Send(context.Background(), []byte("a reading"))
			if err != nil {
				t.Errorf("KEM 0x%04x, %v: %v", uint16(kem), pair, err)
				continue
			}
			if exchange.Choice.KEM != kem || exchange.Choice.Pair != pair || string(exchange.Answer) != "echo a reading" {
				t.Errorf("KEM 0x%04x, %v: %+v", uint16(kem), pair, exchange)
			}
		}
		want.Keys = append(want.Keys, gateway.KeyStatus{ID: sealwax.KeyID(i), KEM: kem, Count: 9})
	}
	f.wantStatus(want)
}
