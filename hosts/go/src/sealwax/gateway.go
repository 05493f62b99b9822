package sealwax

/*
#include "sealwax.h"
*/
import "C"

import "sync"

// A Gateway is the library's gateway, in Go's memory, and the lock that its calls need. Its methods may be called at the same time.
type Gateway struct {
	lock  sync.Mutex
	state C.sealwax_gateway
}

// Setup makes a fresh gateway of a key list and a cap, the uses allowed per key. A configuration that
// Check counts as skipped makes no key; where all are skipped the gateway has none and refuses every request.
func Setup(list []byte, keyCap uint64) (*Gateway, error) {
	gateway := new(Gateway)
	result := C.sealwax_setup(&gateway.state, (*C.uint8_t)(first(list)), C.size_t(len(list)), C.uint64_t(keyCap))
	if err := refusedOfList(result.outcome, list); err != nil {
		return nil, err
	}
	return gateway, nil
}

// An Admission is an accepted request. Enc and Ciphertext are parts of it, not copies.
type Admission struct {
	Ticket     Ticket
	KeyID      KeyID
	Pair       Pair
	Enc        []byte
	Ciphertext []byte
	Info       []byte
}

// Admit admits a request and charges its key's use, which is never given back. The exchange is pending until it is closed by a failed
// opening, Respond or Abandon.
func (g *Gateway) Admit(request []byte) (Admission, error) {
	info := make([]byte, C.SEALWAX_INFO_LENGTH)
	g.lock.Lock()
	result := C.sealwax_admit(&g.state, (*C.uint8_t)(first(request)), C.size_t(len(request)),
		(*C.uint8_t)(first(info)), C.size_t(len(info)))
	g.lock.Unlock()
	if err := refused(result.outcome); err != nil {
		return Admission{}, err
	}
	return Admission{
		Ticket:     Ticket(result.ticket),
		KeyID:      KeyID(result.key_id),
		Pair:       Pair{KDF(result.kdf), AEAD(result.aead)},
		Enc:        request[result.enc_start:result.enc_end],
		Ciphertext: request[result.ciphertext_start:result.ciphertext_end],
		Info:       info,
	}, nil
}

// Opened says that an exchange's request was opened to n bytes.
func (g *Gateway) Opened(ticket Ticket, n int) error {
	_, err := g.openResult(ticket, 1, n)
	return err
}

// NotOpened says that an exchange's request could not be opened: it closes the exchange and answers the unprotected status to send.
func (g *Gateway) NotOpened(ticket Ticket) (status int, err error) {
	return g.openResult(ticket, 0, 0)
}

func (g *Gateway) openResult(ticket Ticket, success C.uint8_t, n int) (status int, err error) {
	g.lock.Lock()
	result := C.sealwax_open(&g.state, C.uint64_t(ticket), success, C.uint64_t(n))
	g.lock.Unlock()
	return int(result.outcome.status), refused(result.outcome)
}

// A Response says how to seal and send a response.
type Response struct {
	Status int
	Salt   []byte // for the KDF
	Length int    // of the whole encapsulated response
}

// Respond closes an opened exchange with a response of plainLength bytes, to be sealed. That enc is the request's is the caller's duty.
func (g *Gateway) Respond(ticket Ticket, enc, nonce []byte, plainLength int) (Response, error) {
	salt := make([]byte, C.SEALWAX_LONGEST_SALT)
	g.lock.Lock()
	result := C.sealwax_respond(&g.state, C.uint64_t(ticket), (*C.uint8_t)(first(enc)), C.size_t(len(enc)),
		(*C.uint8_t)(first(nonce)), C.size_t(len(nonce)), C.uint64_t(plainLength),
		(*C.uint8_t)(first(salt)), C.size_t(len(salt)))
	g.lock.Unlock()
	if err := refused(result.outcome); err != nil {
		return Response{}, err
	}
	return Response{
		Status: int(result.outcome.status),
		Salt:   salt[:len(enc)+len(nonce)],
		Length: int(result.length),
	}, nil
}

// Abandon closes an exchange with no reply.
func (g *Gateway) Abandon(ticket Ticket) error {
	g.lock.Lock()
	defer g.lock.Unlock()
	return refused(C.sealwax_abandon(&g.state, C.uint64_t(ticket)))
}

// Retire retires a key: later admissions refuse it, pending exchanges go on.
func (g *Gateway) Retire(id KeyID) error {
	g.lock.Lock()
	defer g.lock.Unlock()
	return refused(C.sealwax_retire(&g.state, C.uint8_t(id)))
}

// A KeyReport is a key's use count and retirement.
type KeyReport struct {
	ID      KeyID
	Count   uint32
	Retired bool
}

// A Report is what a gateway says of itself; its keys stand in list order.
type Report struct {
	LastTicket Ticket
	Pending    int
	Keys       []KeyReport
}

// Report reports, and changes nothing.
func (g *Gateway) Report() Report {
	g.lock.Lock()
	result := C.sealwax_report(&g.state)
	g.lock.Unlock()
	report := Report{LastTicket: Ticket(result.last_ticket), Pending: int(result.pending)}
	for _, key := range result.keys[:result.key_count] {
		report.Keys = append(report.Keys, KeyReport{KeyID(key.id), uint32(key.count), bool(key.retired)})
	}
	return report
}

// PlainFind is the search alone, for measuring what it costs: the first place of the table whose ticket is this one, by a walk, or 128. A
// free place has the ticket 0.
func (g *Gateway) PlainFind(ticket Ticket) int {
	g.lock.Lock()
	defer g.lock.Unlock()
	return int(C.sealwax_plain_find(&g.state, C.uint64_t(ticket)))
}

// Find is the same by home, as the calls search: place near % 128 is looked at first, and the walk is made where the ticket is not there.
func (g *Gateway) Find(ticket, near Ticket) int {
	g.lock.Lock()
	defer g.lock.Unlock()
	return int(C.sealwax_find(&g.state, C.uint64_t(ticket), C.uint64_t(near)))
}
