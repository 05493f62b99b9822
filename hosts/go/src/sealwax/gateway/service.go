// Package gateway is an Oblivious Gateway Resource (RFC 9458) as an HTTP handler. Package sealwax decides what is admitted, refused and
// sent, package ohttp does the cryptography, and a Target answers what was opened.
package gateway

import (
	"context"
	"encoding/json"
	"errors"
	"io"
	"log"
	"mime"
	"net/http"
	"strconv"
	"sync"
	"time"

	"sealwax"
	"sealwax/ohttp"
)

// Paths of the service. The gateway resource takes requests by POST and hands out its key list by GET, as RFC 9540 has it. The other
// two are the operator's: what stands in front of the service passes on the first one only.
const (
	Path       = "/.well-known/ohttp-gateway"
	StatusPath = "/status"
	RetirePath = "/retire"
)

const textType = "text/plain; charset=utf-8"

// A Target answers what a request held. That is a binary HTTP message, which this release does not look at: the bytes are passed on as
// they were opened, and the answer is sealed as it is. A target may answer late and in any order; the context ends when the client
// goes away or the time is up, and who goes on after that is not waited for.
type Target func(ctx context.Context, opened []byte) ([]byte, error)

// What is sealed where the target has no answer: the binary HTTP responses 502 and 504 without fields and content, in the form of
// Appendix A's 0140c8, which is 200.
var (
	badGateway     = []byte{0x01, 0x41, 0xf6}
	gatewayTimeout = []byte{0x01, 0x41, 0xf8}
)

// A Key is a private key, its key id and the pairs that it is offered with.
type Key struct {
	ID      sealwax.KeyID
	Private *ohttp.Key
	Pairs   []sealwax.Pair
}

// A Config says what a service serves. Use counts live as long as the service: a private key must not be used by another one after it.
type Config struct {
	Keys   []Key
	Cap    uint64 // the uses allowed per key
	Target Target
	Wait   time.Duration // how long to wait for the target, 30 seconds where it is 0
	Log    *log.Logger   // none of what was opened or answered is logged
}

// A Service is the gateway resource, and the operator's two resources beside it.
type Service struct {
	config         Config
	mux            *http.ServeMux
	gateway        *sealwax.Gateway
	configurations []sealwax.Configuration // in list order
	private        map[sealwax.KeyID]*ohttp.Key

	lock  sync.Mutex // of the tally
	tally Tally
}

// A Tally counts how requests ended. The last ticket is the number of the answered, not opened, abandoned and pending ones.
type Tally struct {
	Answered  uint64         `json:"answered"` // with a sealed response
	NotOpened uint64         `json:"not_opened"`
	Abandoned uint64         `json:"abandoned"`
	Refused   map[int]uint64 `json:"refused"` // not admitted, by refusal number
}

// New sets a service up. A refusal is the library's: of the key list made of the keys, or of the cap.
func New(config Config) (*Service, error) {
	if config.Wait == 0 {
		config.Wait = 30 * time.Second
	}
	if config.Log == nil {
		config.Log = log.Default()
	}
	s := &Service{
		config:  config,
		mux:     http.NewServeMux(),
		private: map[sealwax.KeyID]*ohttp.Key{},
		tally:   Tally{Refused: map[int]uint64{}},
	}
	for _, key := range config.Keys {
		s.private[key.ID] = key.Private
		s.configurations = append(s.configurations, sealwax.Configuration{
			ID: key.ID, KEM: key.Private.KEM(), PublicKey: key.Private.Public(), Pairs: key.Pairs,
		})
	}
	list, err := sealwax.WriteList(s.configurations)
	if err != nil {
		return nil, err
	}
	if s.gateway, err = sealwax.Setup(list, config.Cap); err != nil {
		return nil, err
	}
	s.mux.HandleFunc(Path, s.resource)
	s.mux.HandleFunc(StatusPath, s.status)
	s.mux.HandleFunc(RetirePath, s.retire)
	return s, nil
}

func (s *Service) ServeHTTP(w http.ResponseWriter, r *http.Request) { s.mux.ServeHTTP(w, r) }

// Server is an HTTP server of the service with timeouts. The time to write runs from a request's head on, so it covers the time to
// read the content and the wait for the target.
func (s *Service) Server() *http.Server {
	const read = 15 * time.Second
	return &http.Server{
		Handler:           s,
		ReadHeaderTimeout: read / 3,
		ReadTimeout:       read,
		WriteTimeout:      read + s.config.Wait + 15*time.Second,
		IdleTimeout:       60 * time.Second,
		MaxHeaderBytes:    16 << 10,
		ErrorLog:          s.config.Log,
	}
}

func (s *Service) resource(w http.ResponseWriter, r *http.Request) {
	switch r.Method {
	case http.MethodGet, http.MethodHead:
		s.keyList(w)
	case http.MethodPost:
		s.request(w, r)
	default:
		methodNotAllowed(w, "GET, HEAD, POST")
	}
}

func methodNotAllowed(w http.ResponseWriter, allowed string) {
	w.Header().Set("Allow", allowed)
	http.Error(w, "method not allowed: "+allowed, http.StatusMethodNotAllowed)
}

// keyList hands out the keys that still take requests, so that a client whose key was retired or is used up finds another. Where none
// is left there is no list: one has at least one configuration.
func (s *Service) keyList(w http.ResponseWriter) {
	var live []sealwax.Configuration
	for i, key := range s.gateway.Report().Keys {
		if !key.Retired && uint64(key.Count) < s.config.Cap {
			live = append(live, s.configurations[i])
		}
	}
	list, err := sealwax.WriteList(live)
	if err != nil {
		http.Error(w, "no key left", http.StatusServiceUnavailable)
		return
	}
	w.Header().Set("Cache-Control", "no-cache")
	reply{http.StatusOK, ohttp.KeysType, list}.send(w)
}

// A reply is what goes out to a request.
type reply struct {
	status      int
	contentType string
	content     []byte
}

func (r reply) send(w http.ResponseWriter) {
	w.Header().Set("Content-Type", r.contentType)
	w.Header().Set("Content-Length", strconv.Itoa(len(r.content)))
	w.WriteHeader(r.status)
	_, _ = w.Write(r.content) // who does not take the answer has gone away, and the exchange is closed
}

func (s *Service) request(w http.ResponseWriter, r *http.Request) {
	if media, _, err := mime.ParseMediaType(r.Header.Get("Content-Type")); err != nil || media != ohttp.RequestType {
		w.Header().Set("Accept", ohttp.RequestType)
		http.Error(w, "not "+ohttp.RequestType, http.StatusUnsupportedMediaType)
		return
	}
	if r.Header.Get("Expect") != "" { // an error by RFC 9458, 5.1; what the message inside expects is not looked at
		http.Error(w, "no expectations", http.StatusExpectationFailed)
		return
	}
	// A byte more than a request may have is enough for the library to refuse it; the rest of the content is not read.
	request, err := io.ReadAll(http.MaxBytesReader(w, r.Body, sealwax.LongestRequest+1))
	if tooLong := new(http.MaxBytesError); err != nil && !errors.As(err, &tooLong) {
		http.Error(w, "content incomplete", http.StatusBadRequest)
		return
	}
	answer, ok := s.exchange(r.Context(), request)
	if !ok {
		panic(http.ErrAbortHandler) // closes the connection and sends nothing
	}
	w.Header().Set("Cache-Control", "private, no-store")
	answer.send(w)
}

// exchange takes a request through the gateway and answers what goes out: unprotected up to the opening, from then on sealed or
// nothing (RFC 9458, 5.2). The gateway's lock is held in its calls only, and not while HPKE or the target work.
func (s *Service) exchange(client context.Context, request []byte) (answer reply, ok bool) {
	admission, err := s.gateway.Admit(request)
	if err != nil {
		return s.refuse(err)
	}
	// However this ends, and if by a panic, the place in the table is given back.
	closed := false
	defer func() {
		if !closed {
			s.abandon(admission.Ticket)
		}
	}()

	opened, received, err := s.private[admission.KeyID].Open(admission)
	if err != nil {
		answer, closed = s.notOpened(admission.Ticket)
		return answer, closed
	}
	if err := s.gateway.Opened(admission.Ticket, len(opened)); err != nil {
		return s.fail(admission.Ticket, err)
	}
	plain := s.ask(client, admission.Ticket, opened)
	if client.Err() != nil {
		return reply{}, false
	}
	nonce, err := received.Nonce()
	if err != nil {
		return s.fail(admission.Ticket, err)
	}
	response, plain, err := s.respond(admission, nonce, plain)
	if err != nil {
		return s.fail(admission.Ticket, err)
	}
	closed = true
	sealed, err := received.Seal(nonce, response, plain)
	if err != nil {
		return s.fail(admission.Ticket, err)
	}
	s.count(func(t *Tally) { t.Answered++ })
	return reply{response.Status, ohttp.ResponseType, sealed}, true
}

// notOpened closes an exchange whose request could not be opened, and is the unprotected answer to it.
func (s *Service) notOpened(ticket sealwax.Ticket) (answer reply, closed bool) {
	status, err := s.gateway.NotOpened(ticket)
	if err != nil {
		return s.fail(ticket, err)
	}
	s.count(func(t *Tally) { t.NotOpened++ })
	return unprotected(status, "request could not be opened"), true
}

// respond closes an exchange with the target's answer, or where that is longer than a response may be with an error of the target like
// others. It hands back what is to be sealed.
func (s *Service) respond(admission sealwax.Admission, nonce, plain []byte) (sealwax.Response, []byte, error) {
	response, err := s.gateway.Respond(admission.Ticket, admission.Enc, nonce, len(plain))
	if sealwax.IsRefusal(err, sealwax.WrongLength) {
		plain = badGateway
		response, err = s.gateway.Respond(admission.Ticket, admission.Enc, nonce, len(plain))
	}
	return response, plain, err
}

// ask asks the target, or answers the error to seal in its place.
func (s *Service) ask(client context.Context, ticket sealwax.Ticket, opened []byte) []byte {
	ctx, cancel := context.WithTimeout(client, s.config.Wait)
	defer cancel()
	answers := make(chan []byte, 1) // room for one, so that a target that nobody waits for any more can end
	go func() {
		answer, err := badGateway, errors.New("no answer")
		defer func() {
			// The text of an error or of a panic is the target's and may hold what was opened: it is not logged.
			if recover() != nil || err != nil {
				s.config.Log.Printf("ticket %d: the target failed", ticket)
				answer = badGateway
			}
			answers <- answer
		}()
		answer, err = s.config.Target(ctx, opened)
	}()
	select {
	case answer := <-answers:
		return answer
	case <-ctx.Done():
		return gatewayTimeout
	}
}

// refuse is the unprotected answer to a request that was not admitted.
func (s *Service) refuse(err error) (reply, bool) {
	var refusal *sealwax.Refusal
	if !errors.As(err, &refusal) {
		return s.fail(0, err)
	}
	s.count(func(t *Tally) { t.Refused[refusal.Number]++ })
	if refusal.Problem == "" {
		return unprotected(refusal.Status, sealwax.Sentence(refusal.Number)), true
	}
	problem, err := json.Marshal(struct {
		Type  string `json:"type"`
		Title string `json:"title"`
	}{refusal.Problem, sealwax.Sentence(refusal.Number)})
	if err != nil {
		return s.fail(0, err)
	}
	return reply{refusal.Status, ohttp.ProblemType, problem}, true
}

func unprotected(status int, sentence string) reply {
	return reply{status, textType, []byte(sentence + "\n")}
}

// fail is for what no request can bring about: it is logged, and nothing is sent.
func (s *Service) fail(ticket sealwax.Ticket, err error) (reply, bool) {
	s.config.Log.Printf("ticket %d: %v", ticket, err)
	return reply{}, false
}

func (s *Service) abandon(ticket sealwax.Ticket) {
	if err := s.gateway.Abandon(ticket); err != nil {
		s.config.Log.Printf("ticket %d: %v", ticket, err)
		return
	}
	s.count(func(t *Tally) { t.Abandoned++ })
}

func (s *Service) count(how func(*Tally)) {
	s.lock.Lock()
	defer s.lock.Unlock()
	how(&s.tally)
}
