package sealwax

/*
#include "sealwax.h"
*/
import "C"

// Check says how many configurations of a key list were read and how many were skipped, or why the list is bad. Skipped is one of at least 3
// bytes that lies whole in the list and has an unknown KEM: its inside is not read and its key id not taken, but it counts towards the sixteen.
// A bad list is discarded whole (RFC 9458, 3.2); the refusal says what is wrong with it and where.
func Check(list []byte) (configurations, skipped int, err error) {
	result := C.sealwax_check((*C.uint8_t)(first(list)), C.size_t(len(list)))
	return int(result.configurations), int(result.skipped), refusedOfList(result.outcome, list)
}

// PublicKey hands back a key's public key as a part of its list. A configuration that is skipped has none.
func PublicKey(list []byte, id KeyID) ([]byte, error) {
	result := C.sealwax_key((*C.uint8_t)(first(list)), C.size_t(len(list)), C.uint8_t(id))
	if err := refusedOfList(result.outcome, list); err != nil {
		return nil, err
	}
	return list[result.start:result.end], nil
}

// A Configuration is an entry of a key list.
type Configuration struct {
	ID        KeyID
	KEM       KEM
	PublicKey []byte
	Pairs     []Pair
}

// WriteList writes a key list. Its refusals' places are those of the fields in the list that would be written.
func WriteList(configurations []Configuration) ([]byte, error) {
	var (
		ids        []KeyID
		kems       []KEM
		keyLengths []C.size_t
		keys       []byte
		pairCounts []C.size_t
		pairs      []C.uint16_t
	)
	for _, configuration := range configurations {
		numbers := byTurns(configuration.Pairs)
		ids = append(ids, configuration.ID)
		kems = append(kems, configuration.KEM)
		keyLengths = append(keyLengths, C.size_t(len(configuration.PublicKey)))
		keys = append(keys, configuration.PublicKey...)
		pairCounts = append(pairCounts, C.size_t(len(numbers)))
		pairs = append(pairs, numbers...)
	}
	list := make([]byte, LongestList)
	result := C.sealwax_write((*C.uint8_t)(first(ids)), C.size_t(len(ids)), (*C.uint16_t)(first(kems)), C.size_t(len(kems)),
		first(keyLengths), C.size_t(len(keyLengths)), (*C.uint8_t)(first(keys)), C.size_t(len(keys)),
		first(pairCounts), C.size_t(len(pairCounts)), first(pairs), C.size_t(len(pairs)),
		(*C.uint8_t)(first(list)), C.size_t(len(list)))
	if err := refusedToWrite(result.outcome); err != nil {
		return nil, err
	}
	return list[:result.length], nil
}
