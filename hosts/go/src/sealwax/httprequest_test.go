package sealwax

import (
	"bytes"
	"fmt"
	"io"
	"math/rand"
	"net/http"
	"net/http/httptest"
	"net/url"
	"reflect"
	"strings"
	"testing"
)

// filled is an http.Request in a line; headers print in order of their names.
func filled(r *http.Request) string {
	body, _ := io.ReadAll(r.Body)
	return fmt.Sprintf("%s %s %s %q %v %q %d %v", r.Method, r.URL.Scheme, r.URL.RequestURI(), r.Host, r.Header, body, r.ContentLength, r.Trailer)
}

// httpRequests are messages and what becomes of them.
var httpRequests = map[string]struct{ message, want string }{
	"RFC 9458, Appendix A": {"\x00" + counted("GET", "https", "example.com", "/"),
		`GET https / "example.com" map[] "" 0 map[]`},
	"whole": {"\x00" + counted("POST", "http", "[::1]:8080", "/a%2fb//c?d=%20&e?", counted("x-b", "2", "accept", "", "x-b", "1"), "abc",
		counted("x-sum", "9f")), `POST http /a%2fb//c?d=%20&e? "[::1]:8080" map[Accept:[] X-B:[2 1]] "abc" 3 map[X-Sum:[9f]]`},
	"host field alone": {"\x00" + counted("GET", "https", "", "/", counted("host", "b.example", "a", "b")),
		`GET https / "b.example" map[A:[b]] "" 0 map[]`},
	"host field, too": {"\x00" + counted("GET", "https", "a.example", "/", counted("host", "A.example")),
		`GET https / "a.example" map[] "" 0 map[]`},
	"content-length": {upToPath + counted(counted("content-length", "3"), "abc"),
		`GET https / "a.example" map[Content-Length:[3]] "abc" 3 map[]`},
	"OPTIONS":         {"\x00" + counted("OPTIONS", "https", "a.example", "*"), `OPTIONS https * "a.example" map[] "" 0 map[]`},
	"CONNECT":         {"\x00" + counted("CONNECT", "", "a.example:443", ""), `CONNECT  / "a.example:443" map[] "" 0 map[]`},
	"own method":      {"\x00" + counted("m-search", "HTTPS", "a.example", "/?"), `m-search https /? "a.example" map[] "" 0 map[]`},
	"two slashes":     {"\x00" + counted("GET", "https", "a.example", "//b.example/c"), `GET https //b.example/c "a.example" map[] "" 0 map[]`},
	"value of 0x80":   {upToPath + counted(counted("a", "\x80\t ~")), "GET https / \"a.example\" map[A:[\x80\t ~]] \"\" 0 map[]"},
	"another scheme":  {"\x00" + counted("GET", "coap+tcp", "a.example", "/"), `GET coap+tcp / "a.example" map[] "" 0 map[]`},
	"padding is none": {upToPath + "\x00\x00\x00\x00\x00", `GET https / "a.example" map[] "" 0 map[]`},
}

func TestReadHTTPRequest(t *testing.T) {
	for name, good := range httpRequests {
		request, err := ReadHTTPRequest([]byte(good.message))
		if err != nil {
			t.Errorf("%s: %v", name, err)
		} else if line := filled(request); line != good.want {
			t.Errorf("%s: %s, want %s", name, line, good.want)
		}
	}
	request, err := ReadHTTPRequest([]byte(upToPath + counted(counted("A", ""))))
	wants(t, err, Refusal{Number: BadMessage, HasPlace: true, Place: pathEnd + 2})
	if request != nil {
		t.Error(request)
	}
}

const (
	noMethod    = Unfit("the method is no token")
	noPath      = Unfit("the path is none of a URL")
	noAuthority = Unfit("the authority is none of a URL")
	noBase      = Unfit("scheme and authority are none of a URL")
	noConnect   = Unfit("CONNECT with a scheme or a path")
	noHost      = Unfit("neither an authority nor a host field")
	noTrailer   = Unfit("a trailer that only a header can have")
	noLength    = Unfit("a content-length that is not the content's")
)

// unfitParts are methods, schemes, authorities and paths.
var unfitParts = []struct {
	parts [4]string
	want  error
}{
	{[4]string{"", "https", "a.example", "/"}, noMethod},
	{[4]string{"G T", "https", "a.example", "/"}, noMethod},
	{[4]string{"GET\r\n", "https", "a.example", "/"}, noMethod},
	{[4]string{"G\xc3\xa9T", "https", "a.example", "/"}, noMethod},
	{[4]string{"GET", "", "a.example", "/"}, noBase},
	{[4]string{"GET", "1http", "a.example", "/"}, noBase},
	{[4]string{"GET", "http:", "a.example", "/"}, noBase},
	{[4]string{"GET", "http://b", "a.example", "/"}, noBase},
	{[4]string{"GET", "http://a.example/", "a.example", "/"}, noBase},
	{[4]string{"GET", "ht\x00tp", "a.example", "/"}, noBase},
	{[4]string{"GET", "https", "", "/"}, noHost},
	{[4]string{"GET", "https", ":80", "/"}, noBase},
	{[4]string{"GET", "https", "a.example:port", "/"}, noBase},
	{[4]string{"GET", "https", "[::1", "/"}, noBase},
	{[4]string{"GET", "https", "user@a.example", "/"}, noAuthority},
	{[4]string{"GET", "https", "a.example/b", "/"}, noAuthority},
	{[4]string{"GET", "https", "a.example?", "/"}, noAuthority},
	{[4]string{"GET", "https", "a b", "/"}, noAuthority},
	{[4]string{"GET", "https", "a.example\r\nb: c", "/"}, noAuthority},
	{[4]string{"GET", "https", "\xc3\xa9.example", "/"}, noAuthority},
	{[4]string{"GET", "https", "%c3%a9.example", "/"}, noAuthority},
	{[4]string{"GET", "https", "a.example", ""}, noPath},
	{[4]string{"GET", "https", "a.example", "*"}, noPath},
	{[4]string{"OPTIONS", "https", "a.example", "**"}, noPath},
	{[4]string{"GET", "https", "a.example", "a"}, noPath},
	{[4]string{"GET", "https", "a.example", "https://b.example/"}, noPath},
	{[4]string{"GET", "https", "a.example", "/a b"}, noPath},
	{[4]string{"GET", "https", "a.example", "/?a b"}, noPath},
	{[4]string{"GET", "https", "a.example", "/?a\r\nb: c"}, noPath},
	{[4]string{"GET", "https", "a.example", "/#a"}, noPath},
	{[4]string{"GET", "https", "a.example", "/?#a"}, noPath},
	{[4]string{"GET", "https", "a.example", "/%zz"}, noPath},
	{[4]string{"GET", "https", "a.example", "/a|b"}, noPath}, // would be sent as %7C
	{[4]string{"GET", "https", "a.example", "/\xc3\xa9"}, noPath},
	{[4]string{"GET", "https", "a.example", "/?\xff"}, noPath},
	{[4]string{"GET", "https", "a.example", "/\x00"}, noPath},
	{[4]string{"CONNECT", "https", "a.example:443", ""}, noConnect},
	{[4]string{"CONNECT", "", "a.example:443", "/"}, noConnect},
	{[4]string{"CONNECT", "", "", ""}, noHost},
	{[4]string{"CONNECT", "", "a/b:443", ""}, noAuthority},
}

// unfitRests are what stands behind a path.
var unfitRests = map[string]Unfit{
	counted(counted("a", "b\x01")):                                      "a control character in a value",
	counted(counted("a", "b\x7f")):                                      "a control character in a value",
	counted("", "", counted("a", "b\x1b")):                              "a control character in a value",
	counted(counted("host", "a.example", "host", "a.example")):          "more than one host field",
	counted(counted("host", "b.example")):                               "a host field that is not the authority",
	counted(counted("transfer-encoding", "chunked")):                    "a transfer-encoding",
	counted(counted("content-length", "4"), "abc"):                      noLength,
	counted(counted("content-length", "3", "content-length", ""), "ab"): noLength,
	counted(counted("content-length", "1")):                             noLength,
	counted("", "abc", counted("content-length", "3")):                  noTrailer,
	counted("", "", counted("trailer", "a")):                            noTrailer,
	counted("", "", counted("transfer-encoding", "chunked")):            noTrailer,
}

// What net/http cannot hold is no refusal, and its text has nothing of the message.
func TestUnfit(t *testing.T) {
	for _, c := range unfitParts {
		unfit(t, "\x00"+counted(c.parts[:]...), c.want)
	}
	for rest, want := range unfitRests {
		unfit(t, upToPath+rest, want)
	}
	unfit(t, "\x00"+counted("GET", "https", "", "/", counted("host", "a b")), noAuthority)
	unfit(t, "\x00"+counted("GET", "https", "", "/", counted("host", "")), noHost)
}

// unfit checks that a message is good, and that no http.Request is made of it.
func unfit(t *testing.T, message string, want error) {
	t.Helper()
	if _, err := ReadInnerRequest([]byte(message)); err != nil {
		t.Errorf("%q: %v", message, err)
	}
	if request, err := ReadHTTPRequest([]byte(message)); request != nil || err != want || IsRefusal(err, BadMessage) {
		t.Errorf("%q: %v, want %v", message, err, want)
	}
}

// anyPart is a usual part, or one made of these pieces.
func anyPart(random *rand.Rand, usual string) string {
	pieces := []string{"GET", "OPTIONS", "CONNECT", "http", "a", "b.c", ":", "/", "//", "?", "#", "*", "@", "%", "%41", "[", "]", "::1", "8",
		" ", "\t", "\r\n", "\x00", "\x7f", "\xff", "é", "\\", "|", "<", "~", "&"}
	if random.Intn(3) > 0 {
		return usual
	}
	text := ""
	for n := random.Intn(5); n > 0; n-- {
		text += pieces[random.Intn(len(pieces))]
	}
	return text
}

// Whatever bytes the parts have, nothing panics, and what is accepted is what net/url reads of them.
func TestAnyParts(t *testing.T) {
	random := rand.New(rand.NewSource(3))
	taken := 0
	for i := 0; i < 50000; i++ {
		method, scheme := anyPart(random, "GET"), anyPart(random, "https")
		authority, path := anyPart(random, "a.example"), anyPart(random, "/a")
		request, err := ReadHTTPRequest([]byte("\x00" + counted(method, scheme, authority, path)))
		if err != nil {
			continue
		}
		taken++
		if method == "CONNECT" {
			scheme, path = "http", "/"
		}
		again, err := url.Parse(scheme + "://" + authority + strings.TrimPrefix(path, "*"))
		if err != nil || again.Host != request.Host || path != request.URL.RequestURI() || request.Method != method || again.User != nil {
			t.Errorf("%q %q %q %q: %v, %v", method, scheme, authority, path, request.URL, err)
		}
	}
	if taken < 1000 {
		t.Errorf("only %d were taken", taken)
	}
}

// What net/http sends is the request inside.
func TestSentOn(t *testing.T) {
	got := make(chan string, 1)
	server := httptest.NewServer(http.HandlerFunc(func(w http.ResponseWriter, r *http.Request) {
		r.Header.Del("Accept-Encoding") // Go's client asks for one
		body, _ := io.ReadAll(r.Body)
		got <- fmt.Sprintf("%s %s %s %v %q", r.Method, r.RequestURI, r.Host, r.Header, body)
	}))
	defer server.Close()
	// The server stands where a proxy would, so that it gets requests to every host, with the whole URL.
	transport := &http.Transport{Proxy: func(*http.Request) (*url.URL, error) { return url.Parse(server.URL) }}
	for _, c := range []struct{ message, want string }{
		{"\x00" + counted("POST", "http", "a.example", "/a%2Fb?c=d", counted("user-agent", "monitor", "x-a", "1", "x-a", "2"), "abc"),
			`POST http://a.example/a%2Fb?c=d a.example map[Content-Length:[3] User-Agent:[monitor] X-A:[1 2]] "abc"`},
		{"\x00" + counted("GET", "http", "", "//?", counted("user-agent", "monitor", "host", "b.example:80")),
			`GET http://b.example:80//? b.example:80 map[User-Agent:[monitor]] ""`},
	} {
		request, err := ReadHTTPRequest([]byte(c.message))
		if err != nil {
			t.Fatal(err)
		}
		response, err := (&http.Client{Transport: transport}).Do(request)
		if err != nil {
			t.Fatal(err)
		}
		response.Body.Close()
		if line := <-got; line != c.want {
			t.Errorf("%s, want %s", line, c.want)
		}
	}
}

// The body can be read again, as redirects need it, and is the content's own memory.
func TestBody(t *testing.T) {
	message := []byte(upToPath + counted("", "abc"))
	request, err := ReadHTTPRequest(message)
	if err != nil {
		t.Fatal(err)
	}
	message[len(message)-1] = 'd'
	again, err := request.GetBody()
	if err != nil {
		t.Fatal(err)
	}
	for _, body := range []io.Reader{request.Body, again} {
		if content, err := io.ReadAll(body); err != nil || !bytes.Equal(content, []byte("abd")) {
			t.Errorf("%q, %v", content, err)
		}
	}
	request, err = ReadHTTPRequest([]byte(upToPath))
	if err != nil || request.Body != http.NoBody || !reflect.DeepEqual(request.Header, http.Header{}) || request.Trailer != nil {
		t.Errorf("%+v, %v", request, err)
	}
}
