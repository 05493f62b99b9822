// Package sealwax is the C interface of Sealwax (include/sealwax.h) in Go: the bookkeeping of an Oblivious HTTP gateway, RFC 9458, and
// the client's side of it, and the request inside, RFC 9292. Every rule and every layout is the library's, which is proved; this package
// passes bytes and numbers, holds the gateway's lock, turns refusals into errors and a request inside into an http.Request. HPKE is in
// package ohttp, the services in packages gateway and client.
//
// It links build/libsealwax.a of the repository, which ./library makes.
package sealwax

/*
#cgo CFLAGS: -I${SRCDIR}/../../../../include
#cgo LDFLAGS: ${SRCDIR}/../../../../build/libsealwax.a
#include "sealwax.h"
*/
import "C"

import "unsafe"

// A Ticket is an exchange's number, 1, 2, 3 and on; it never repeats.
type Ticket uint64

// A KeyID is a key's number in a key list and in requests.
type KeyID uint8

// KEM, KDF and AEAD are HPKE's numbers (RFC 9180, 7).
type (
	KEM  uint16
	KDF  uint16
	AEAD uint16
)

// A Pair is a KDF and an AEAD that are offered together.
type Pair struct {
	KDF  KDF
	AEAD AEAD
}

// Sizes in bytes, of which a host needs the first three to stop reading; the last is of a list that is written.
const (
	LongestRequest  = C.SEALWAX_LONGEST_REQUEST
	LongestResponse = C.SEALWAX_LONGEST_RESPONSE
	LongestListRead = C.SEALWAX_LONGEST_LIST_READ
	LongestList     = C.SEALWAX_LONGEST_LIST
)

// MostKeys is the most keys of a gateway.
const MostKeys = C.SEALWAX_MOST_KEYS

// A library whose structs are not the header's would write past Go's memory, so a program that is linked to one does not start.
func init() {
	said, messages := C.sealwax_sizes(), C.sealwax_message_sizes()
	for _, pair := range [][2]uintptr{
		{uintptr(said.gateway), unsafe.Sizeof(C.sealwax_gateway{})},
		{uintptr(said.outcome), unsafe.Sizeof(C.sealwax_outcome{})},
		{uintptr(said.setup), unsafe.Sizeof(C.sealwax_setup_result{})},
		{uintptr(said.admit), unsafe.Sizeof(C.sealwax_admit_result{})},
		{uintptr(said.open), unsafe.Sizeof(C.sealwax_open_result{})},
		{uintptr(said.respond), unsafe.Sizeof(C.sealwax_respond_result{})},
		{uintptr(said.report), unsafe.Sizeof(C.sealwax_report_result{})},
		{uintptr(said.check), unsafe.Sizeof(C.sealwax_check_result{})},
		{uintptr(said.key), unsafe.Sizeof(C.sealwax_key_result{})},
		{uintptr(said.write), unsafe.Sizeof(C.sealwax_write_result{})},
		{uintptr(said.choose), unsafe.Sizeof(C.sealwax_choose_result{})},
		{uintptr(said.head), unsafe.Sizeof(C.sealwax_head_result{})},
		{uintptr(said.split), unsafe.Sizeof(C.sealwax_split_result{})},
		{uintptr(said.exporter), unsafe.Sizeof(C.sealwax_exporter_result{})},
		{uintptr(messages.request), unsafe.Sizeof(C.sealwax_request_result{})},
		{uintptr(messages.request_part), unsafe.Sizeof(C.sealwax_request_part_result{})},
		{uintptr(messages.next_field), unsafe.Sizeof(C.sealwax_next_field_result{})},
	} {
		if pair[0] != pair[1] {
			panic("sealwax: include/sealwax.h and build/libsealwax.a are not of one make")
		}
	}
}

// first is where a slice begins, null where it is empty, as the header allows. The elements passed to C hold no pointers, and the
// library keeps none, so cgo's rules are met.
func first[T any](slice []T) *T {
	if len(slice) == 0 {
		return nil
	}
	return &slice[0]
}

// byTurns lists pairs as the library takes them: KDF, AEAD, KDF, AEAD and on.
func byTurns(pairs []Pair) []C.uint16_t {
	numbers := make([]C.uint16_t, 0, 2*len(pairs))
	for _, pair := range pairs {
		numbers = append(numbers, C.uint16_t(pair.KDF), C.uint16_t(pair.AEAD))
	}
	return numbers
}
