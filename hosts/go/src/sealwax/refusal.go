package sealwax

/*
#include "sealwax.h"
*/
import "C"

import (
	"encoding/binary"
	"errors"
	"fmt"
)

// Refusal numbers. The place of BadMessage is that of the message's first wrong byte, or its length where bytes are missing.
const (
	TooShort              = C.SEALWAX_TOO_SHORT
	TooLong               = C.SEALWAX_TOO_LONG
	UnknownKEM            = C.SEALWAX_UNKNOWN_KEM
	NoSuchKey             = C.SEALWAX_NO_SUCH_KEY
	OtherKEM              = C.SEALWAX_OTHER_KEM
	PairNotOffered        = C.SEALWAX_PAIR_NOT_OFFERED
	KeyRetired            = C.SEALWAX_KEY_RETIRED
	KeyUsedUp             = C.SEALWAX_KEY_USED_UP
	TableFull             = C.SEALWAX_TABLE_FULL
	NotPending            = C.SEALWAX_NOT_PENDING
	StepNotAllowed        = C.SEALWAX_STEP_NOT_ALLOWED
	WrongLength           = C.SEALWAX_WRONG_LENGTH
	NoRoom                = C.SEALWAX_NO_ROOM
	NoUsableConfiguration = C.SEALWAX_NO_USABLE_CONFIGURATION
	CapOutOfRange         = C.SEALWAX_CAP_OUT_OF_RANGE
	ListTruncated         = C.SEALWAX_LIST_TRUNCATED
	LengthMismatch        = C.SEALWAX_LENGTH_MISMATCH
	BadPairLength         = C.SEALWAX_BAD_PAIR_LENGTH
	DuplicateKeyID        = C.SEALWAX_DUPLICATE_KEY_ID
	TooManyConfigurations = C.SEALWAX_TOO_MANY_CONFIGURATIONS
	BadMessage            = C.SEALWAX_BAD_MESSAGE
)

// OHTTPKey is the problem type of a request with a wrong or outdated key configuration (RFC 9458, 5.3).
const OHTTPKey = "https://iana.org/assignments/http-problem-types#ohttp-key"

var sentences = map[int]string{
	TooShort:              "request or response too short",
	TooLong:               "request or response too long",
	UnknownKEM:            "KEM unknown",
	NoSuchKey:             "key identifier unknown",
	OtherKEM:              "KEM is not that key's",
	PairNotOffered:        "pair of KDF and AEAD unknown, or not offered for that key",
	KeyRetired:            "key retired",
	KeyUsedUp:             "key used up",
	TableFull:             "too many exchanges pending",
	NotPending:            "ticket not pending",
	StepNotAllowed:        "step not allowed in this state",
	WrongLength:           "opened, enc, nonce, plain or pair-list length wrong",
	NoRoom:                "lent buffer too small",
	NoUsableConfiguration: "no usable configuration",
	CapOutOfRange:         "cap outside 1 to 1,000,000,000",
	ListTruncated:         "key list ends before a configuration does, or has none",
	LengthMismatch:        "length and contents of a configuration disagree",
	BadPairLength:         "pair length not a multiple of 4, or 0, or above 64",
	DuplicateKeyID:        "key id twice",
	TooManyConfigurations: "more than sixteen configurations",
	BadMessage:            "message inside bad",
}

// Sentence says what a refusal number means; each number has its own sentence.
func Sentence(number int) string { return sentences[number] }

// A Refusal is the library's numbered answer to a call that it did not accept; such a call has changed nothing.
type Refusal struct {
	Number   int
	HasPlace bool   // whether Place counts: for ListTruncated to BadMessage, and for the list writer's UnknownKEM
	Place    int    // the first byte of the field at fault, in the list that was read or would be written; for BadMessage the first wrong byte
	Found    string // what is wrong there: "pair length at byte 37 is 6, not a multiple of 4"
	Status   int    // the HTTP status to send unprotected, 0 where nothing is sent
	Problem  string // OHTTPKey, or none
}

func (r *Refusal) Error() string {
	switch {
	case r.Found != "":
		return fmt.Sprintf("refusal %d: %s", r.Number, r.Found)
	case r.HasPlace:
		return fmt.Sprintf("refusal %d at %d: %s", r.Number, r.Place, Sentence(r.Number))
	}
	return fmt.Sprintf("refusal %d: %s", r.Number, Sentence(r.Number))
}

// IsRefusal says whether an error is the refusal of this number.
func IsRefusal(err error, number int) bool {
	var refusal *Refusal
	return errors.As(err, &refusal) && refusal.Number == number
}

func refused(outcome C.sealwax_outcome) error {
	if outcome.number == C.SEALWAX_ACCEPTED {
		return nil
	}
	return refusalOf(outcome)
}

// refusedOfList is the same of a call that has read this list: a refusal also says what stands in it.
func refusedOfList(outcome C.sealwax_outcome, list []byte) error {
	if outcome.number == C.SEALWAX_ACCEPTED {
		return nil
	}
	refusal := refusalOf(outcome)
	if refusal.HasPlace && refusal.Place <= len(list) {
		refusal.Found = found(refusal.Number, refusal.Place, list[refusal.Place:])
	}
	return refusal
}

// refusedToWrite is the same of a list that would be written.
func refusedToWrite(outcome C.sealwax_outcome) error {
	if outcome.number == C.SEALWAX_ACCEPTED {
		return nil
	}
	refusal := refusalOf(outcome)
	if refusal.HasPlace {
		refusal.Found = unwritable(refusal.Number, refusal.Place)
	}
	return refusal
}

func refusalOf(outcome C.sealwax_outcome) *Refusal {
	refusal := &Refusal{
		Number:   int(outcome.number),
		HasPlace: bool(outcome.has_place),
		Place:    int(outcome.place),
		Status:   int(outcome.status),
	}
	if outcome.problem == C.SEALWAX_OHTTP_KEY {
		refusal.Problem = OHTTPKey
	}
	return refusal
}

// found says what is wrong with the field that stands at the front of these bytes of a list, at this place of it; nothing where there is
// nothing more to say than the number's sentence.
func found(number, place int, bytes []byte) string {
	switch {
	case number == TooManyConfigurations:
		return fmt.Sprintf("a seventeenth configuration at byte %d", place)
	case number == ListTruncated && len(bytes) == 0:
		return "there is no configuration at all"
	case number == ListTruncated && len(bytes) == 1:
		return fmt.Sprintf("the list ends within the length at byte %d", place)
	case number == DuplicateKeyID && len(bytes) > 0:
		return fmt.Sprintf("key id at byte %d is %d, as that of an earlier configuration", place, bytes[0])
	case len(bytes) < 2:
		return ""
	}
	length := binary.BigEndian.Uint16(bytes)
	switch number {
	case ListTruncated:
		return fmt.Sprintf("length at byte %d is %d, but only %d bytes follow", place, length, len(bytes)-2)
	case LengthMismatch:
		return fmt.Sprintf("length at byte %d is %d, but its fields need another length", place, length)
	case BadPairLength:
		return fmt.Sprintf("pair length at byte %d is %d, %s", place, length, pairRule(length))
	}
	return ""
}

// unwritable says the same of a list that would be written, with the field at this place of it.
func unwritable(number, place int) string {
	switch number {
	case ListTruncated:
		return "there is no configuration at all"
	case TooManyConfigurations:
		return fmt.Sprintf("a seventeenth configuration at byte %d", place)
	case UnknownKEM:
		return fmt.Sprintf("KEM at byte %d is unknown", place)
	case LengthMismatch:
		return fmt.Sprintf("public key of the configuration at byte %d is not as long as its KEM's keys", place)
	case BadPairLength:
		return fmt.Sprintf("pair length at byte %d would not be 4 to 64: there must be 1 to 16 pairs", place)
	case DuplicateKeyID:
		return fmt.Sprintf("key id at byte %d is that of an earlier configuration", place)
	}
	return ""
}

// pairRule says which rule a pair length breaks.
func pairRule(length uint16) string {
	switch {
	case length == 0:
		return "and there must be a pair"
	case length%4 != 0:
		return "not a multiple of 4"
	}
	return "above 64"
}
