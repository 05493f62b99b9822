package gateway_test

import (
	"bytes"
	"context"
	"errors"
	"fmt"
	"io"
	"math/rand"
	"net"
	"net/http"
	"reflect"
	"strings"
	"sync"
	"sync/atomic"
	"testing"
	"time"

	"sealwax"
	"sealwax/gateway"
	"sealwax/ohttp"
)

// A record is what clients saw.
type record struct {
	answered, notOpened, abandoned map[sealwax.KeyID]uint64
	refused                        map[int]uint64
	cutOff                         uint64
}

func newRecord() *record {
	return &record{map[sealwax.KeyID]uint64{}, map[sealwax.KeyID]uint64{}, map[sealwax.KeyID]uint64{}, map[int]uint64{}, 0}
}

func add[K comparable](to, from map[K]uint64) {
	for key, count := range from {
		to[key] += count
	}
}

func sum[K comparable](counts map[K]uint64) (total uint64) {
	for _, count := range counts {
		total += count
	}
	return total
}

const (
	stressClients  = 200
	stressRequests = 15 // of each client, after the first
	stressCap      = 400
)

// A stress is a service with six keys, a target that does as readings say, and what the clients and the target share.
type stress struct {
	*fixture
	keys []gateway.Key

	// The first request of every client waits in the target until all of them are there or were refused.
	together int32
	all      chan struct{}
	// Readings that wait for their client to go away, by their number.
	held sync.Map
	sent int64
}

func (s *stress) arrive() {
	if atomic.AddInt32(&s.together, 1) == stressClients {
		close(s.all)
	}
}

// target takes a reading of a word and a number.
func (s *stress) target(ctx context.Context, reading []byte) ([]byte, error) {
	var word, number string
	if _, err := fmt.Sscan(string(reading), &word, &number); err != nil {
		return nil, err
	}
	switch word {
	case "together":
		s.arrive()
		select {
		case <-s.all:
		case <-ctx.Done():
		}
	case "slow":
		time.Sleep(time.Duration(reading[len(reading)-1]%16) * time.Millisecond)
	case "error":
		return nil, errors.New("as the reading says")
	case "panic":
		panic("as the reading says")
	case "hold":
		there, _ := s.held.Load(number)
		close(there.(chan struct{}))
		<-ctx.Done()
	}
	return echo(ctx, reading)
}

// Two hundred clients at once, some of which send junk or go away, while keys wear out and are retired. Afterwards the report is what
// the clients saw, exactly: nothing that they cannot account for was counted, and nothing that they saw was not.
func TestConcurrentClients(t *testing.T) {
	pairs := []sealwax.Pair{{KDF: 1, AEAD: 1}, {KDF: 2, AEAD: 3}, {KDF: 3, AEAD: 2}}
	s := &stress{all: make(chan struct{})}
	for i, kem := range []sealwax.KEM{0x0020, 0x0010, 0x0020, 0x0011, 0x0021, 0x0012} {
		s.keys = append(s.keys, gateway.Key{ID: sealwax.KeyID(11 + i), Private: fresh(t, kem), Pairs: pairs})
	}
	s.fixture = start(t, gateway.Config{Keys: s.keys, Cap: stressCap, Target: s.target})
	// A connection for each request: one that Go's client has opened ahead and kept may be closed by the server's timeout just when it is
	// taken, and a POST is then not sent again.
	s.server.Client().Transport.(*http.Transport).DisableKeepAlives = true

	clients := make(chan *record)
	go func() { clients <- s.clients(t) }()
	retired := s.operator(t)
	saw := <-clients
	s.server.Close() // waits for every handler

	want := s.accounted(saw, retired)
	if got := s.jsonStatus(); !reflect.DeepEqual(got, want) {
		t.Errorf("the status page has\n%+v, the clients saw\n%+v", got, want)
	}
	t.Logf("the clients saw\n%s%d were cut off", want, saw.cutOff)

	// That all of this happened.
	if saw.refused[9] < stressClients-128 {
		t.Errorf("%d clients met a full table", saw.refused[9])
	}
	if used := want.Keys[0].Count; used != stressCap {
		t.Errorf("key 11 did not wear out: %d uses", used)
	}
	for number := range statuses {
		if saw.refused[number] == 0 {
			t.Errorf("nobody was refused with %d", number)
		}
	}
	if sum(saw.notOpened) == 0 || sum(saw.abandoned) == 0 || saw.cutOff == 0 {
		t.Errorf("%+v", saw)
	}
}

// clients runs all clients to their end, and answers what they saw together.
func (s *stress) clients(t *testing.T) *record {
	seed := time.Now().UnixNano()
	t.Logf("seed %d", seed)
	records := make(chan *record)
	for i := int64(0); i < stressClients; i++ {
		go func(random *rand.Rand) {
			seen := newRecord()
			s.first(seen)
			for n := 0; n < stressRequests; n++ {
				s.one(random, seen)
			}
			records <- seen
		}(rand.New(rand.NewSource(seed + i)))
	}
	saw := newRecord()
	for i := 0; i < stressClients; i++ {
		seen := <-records
		add(saw.answered, seen.answered)
		add(saw.notOpened, seen.notOpened)
		add(saw.abandoned, seen.abandoned)
		add(saw.refused, seen.refused)
		saw.cutOff += seen.cutOff
	}
	return saw
}

// operator retires two keys, at a third and at two thirds of the way, and looks at the status until then. It answers which.
func (s *stress) operator(t *testing.T) map[sealwax.KeyID]bool {
	retired := map[sealwax.KeyID]bool{}
	for _, retirement := range []struct {
		after int64
		id    sealwax.KeyID
	}{{stressClients * stressRequests / 3, 13}, {stressClients * stressRequests * 2 / 3, 14}} {
		for atomic.LoadInt64(&s.sent) < retirement.after {
			if status := s.service.Status(); status.Pending > 128 {
				t.Errorf("%d pending", status.Pending)
			}
			time.Sleep(time.Millisecond)
		}
		form := []byte(fmt.Sprintf("key=%d", retirement.id))
		answer, err := s.send(context.Background(), http.MethodPost, gateway.RetirePath, "application/x-www-form-urlencoded", form)
		if err != nil || answer.status != 200 {
			t.Errorf("retire: %d, %v", answer.status, err)
		}
		retired[retirement.id] = true
	}
	return retired
}

// accounted is the status that the clients can account for.
func (s *stress) accounted(saw *record, retired map[sealwax.KeyID]bool) gateway.Status {
	status := gateway.Status{
		Cap:        stressCap,
		LastTicket: sealwax.Ticket(sum(saw.answered) + sum(saw.notOpened) + sum(saw.abandoned)),
		Tally: gateway.Tally{
			Answered: sum(saw.answered), NotOpened: sum(saw.notOpened), Abandoned: sum(saw.abandoned), Refused: saw.refused,
		},
	}
	for _, key := range s.keys {
		status.Keys = append(status.Keys, gateway.KeyStatus{
			ID: key.ID, KEM: key.Private.KEM(), Retired: retired[key.ID],
			Count: uint32(saw.answered[key.ID] + saw.notOpened[key.ID] + saw.abandoned[key.ID]),
		})
	}
	return status
}

// first sends a request that waits in the target: with 200 clients, 128 come to the target and the others are refused.
func (s *stress) first(seen *record) {
	before := seen.refused[9]
	s.exchange(seen, s.keys[1], "together 0")
	if seen.refused[9] > before {
		s.arrive()
	}
}

// one sends one request of a kind that chance chooses.
func (s *stress) one(random *rand.Rand, seen *record) {
	number := atomic.AddInt64(&s.sent, 1)
	key := s.keys[0] // half of them, so that it wears out
	if random.Intn(2) == 0 {
		key = s.keys[random.Intn(len(s.keys))]
	}
	reading := fmt.Sprintf("slow %d", number)
	request, _ := seal(s, key, []byte(reading))
	switch random.Intn(20) {
	default:
		s.exchange(seen, key, reading)
	case 0:
		s.exchange(seen, key, fmt.Sprintf("error %d", number))
	case 1:
		s.exchange(seen, key, fmt.Sprintf("panic %d", number))
	case 2: // random bytes
		junk := make([]byte, random.Intn(300))
		random.Read(junk)
		s.junk(seen, junk)
	case 3: // cut
		s.junk(seen, request[:random.Intn(len(request))])
	case 4: // wrong key id
		s.junk(seen, patch(request, 0, byte(17+random.Intn(200))))
	case 5: // another key's KEM; long enough for all
		s.junk(seen, append(patch(request, 1, 0x00, 0x10+byte(random.Intn(3))), make([]byte, 100)...))
	case 6: // unknown KEM
		s.junk(seen, patch(request, 1, 0x00, 0x22+byte(random.Intn(200))))
	case 7: // known, but not offered together; unknown
		s.junk(seen, patch(request, 3, 0x00, 0x01, 0x00, 0x03))
		s.junk(seen, patch(request, 3, 0x00, 0x01, 0xff, 0xff))
	case 8: // damaged
		place := 7 + random.Intn(len(request)-7)
		s.junk(seen, patch(request, place, request[place]^(1<<random.Intn(8))))
	case 9: // too long
		s.junk(seen, append(request, make([]byte, sealwax.LongestRequest+1-len(request))...))
	case 10, 11:
		s.goAway(seen, key, fmt.Sprint(number))
	case 12:
		s.cutOff(seen, request)
	}
}

// exchange sends a good request; the answer is a refusal or what the target says to the reading.
func (s *stress) exchange(seen *record, key gateway.Key, reading string) {
	request, sent := seal(s, key, []byte(reading))
	answer, err := s.send(context.Background(), http.MethodPost, gateway.Path, ohttp.RequestType, request)
	if err != nil {
		s.Error(err)
		return
	}
	s.see(seen, request, answer, sent, reading)
}

// junk sends bytes to which no sealed answer can come.
func (s *stress) junk(seen *record, request []byte) {
	answer, err := s.send(context.Background(), http.MethodPost, gateway.Path, ohttp.RequestType, request)
	if err != nil {
		s.Error(err)
		return
	}
	s.see(seen, request, answer, nil, "")
}

// see records an answer.
func (s *stress) see(seen *record, request []byte, answer answered, sent *ohttp.Sent, reading string) {
	switch {
	case answer.status == 200 && sent != nil:
		plain, err := open(answer, sent)
		want := []byte("echo " + reading)
		if strings.HasPrefix(reading, "error") || strings.HasPrefix(reading, "panic") {
			want = []byte{0x01, 0x41, 0xf6}
		}
		if err != nil || !bytes.Equal(plain, want) {
			s.Errorf("%q was answered %q, %v", reading, plain, err)
		}
		seen.answered[sealwax.KeyID(request[0])]++
	case answer.status == 422 && sent == nil:
		seen.notOpened[sealwax.KeyID(request[0])]++
	default:
		number, err := refusal(answer)
		if err != nil {
			s.Error(err)
		}
		seen.refused[number]++
	}
}

// goAway sends a good request and goes away when the target has it; where it is refused, that is an answer like others.
func (s *stress) goAway(seen *record, key gateway.Key, number string) {
	ctx, cancel := context.WithCancel(context.Background())
	defer cancel()
	there := make(chan struct{})
	s.held.Store(number, there)
	go func() {
		select {
		case <-there:
			cancel()
		case <-ctx.Done():
		}
	}()
	request, sent := seal(s, key, []byte("hold "+number))
	answer, err := s.send(ctx, http.MethodPost, gateway.Path, ohttp.RequestType, request)
	switch {
	case errors.Is(err, context.Canceled):
		seen.abandoned[key.ID]++
	case err != nil:
		s.Error(err)
	case answer.status == 200:
		s.Error("answered although the client had gone away")
	default:
		s.see(seen, request, answer, sent, "")
	}
}

// cutOff breaks the connection in the middle of a request, which is then none.
func (s *stress) cutOff(seen *record, request []byte) {
	connection, err := net.Dial("tcp", s.server.Listener.Addr().String())
	if err != nil {
		s.Error(err)
		return
	}
	defer connection.Close()
	head := fmt.Sprintf("%sContent-Length: %d\r\n\r\n", rawHead, len(request))
	if _, err := io.WriteString(connection, head+string(request[:len(request)/2])); err != nil {
		s.Error(err)
	}
	seen.cutOff++
}
