package sealwax

/*
#include "sealwax.h"
*/
import "C"

// A Choice is the configuration and the pair that a client takes of a key list. PublicKey is a part of the list.
type Choice struct {
	KeyID     KeyID
	KEM       KEM
	Pair      Pair
	PublicKey []byte
}

// Choose takes the first configuration of a list, and of its pairs the first, that the client can use.
func Choose(list []byte, kems []KEM, pairs []Pair) (Choice, error) {
	numbers := byTurns(pairs)
	result := C.sealwax_choose((*C.uint8_t)(first(list)), C.size_t(len(list)), (*C.uint16_t)(first(kems)), C.size_t(len(kems)),
		first(numbers), C.size_t(len(numbers)))
	if err := refusedOfList(result.outcome, list); err != nil {
		return Choice{}, err
	}
	return Choice{
		KeyID:     KeyID(result.key_id),
		KEM:       KEM(result.kem),
		Pair:      Pair{KDF(result.kdf), AEAD(result.aead)},
		PublicKey: list[result.key_start:result.key_end],
	}, nil
}

// Head writes what a request begins with, and HPKE's info.
func Head(choice Choice, enc []byte) (head, info []byte, err error) {
	head = make([]byte, C.SEALWAX_LONGEST_HEAD)
	info = make([]byte, C.SEALWAX_INFO_LENGTH)
	result := C.sealwax_head(C.uint8_t(choice.KeyID), C.uint16_t(choice.KEM), C.uint16_t(choice.Pair.KDF), C.uint16_t(choice.Pair.AEAD),
		(*C.uint8_t)(first(enc)), C.size_t(len(enc)), (*C.uint8_t)(first(head)), C.size_t(len(head)),
		(*C.uint8_t)(first(info)), C.size_t(len(info)))
	if err := refused(result.outcome); err != nil {
		return nil, nil, err
	}
	return head[:result.length], info, nil
}

// Split hands back the two parts of a response.
func Split(aead AEAD, response []byte) (nonce, ciphertext []byte, err error) {
	result := C.sealwax_split(C.uint16_t(aead), (*C.uint8_t)(first(response)), C.size_t(len(response)))
	if err := refused(result.outcome); err != nil {
		return nil, nil, err
	}
	end := result.nonce_length + result.ciphertext_length
	return response[:result.nonce_length], response[result.nonce_length:end], nil
}

// Exporter answers HPKE's exporter context of a response, and how many bytes to export: as many as the response nonce has.
func Exporter(aead AEAD) (context []byte, secretLength int, err error) {
	context = make([]byte, C.SEALWAX_EXPORTER_CONTEXT_LENGTH)
	result := C.sealwax_exporter(C.uint16_t(aead), (*C.uint8_t)(first(context)), C.size_t(len(context)))
	if err := refused(result.outcome); err != nil {
		return nil, 0, err
	}
	return context[:result.context_length], int(result.secret_length), nil
}
