// Package ohttp does the cryptography of RFC 9458 with CIRCL's HPKE: a client seals requests and opens responses, a gateway opens
// requests and seals responses. Parts, heads, info, salt, lengths and the exporter context are asked of package sealwax.
package ohttp

import (
	"bytes"
	"crypto/cipher"
	"crypto/rand"
	"errors"
	"fmt"

	"sealwax"

	"github.com/cloudflare/circl/hpke"
	"github.com/cloudflare/circl/kem"
)

// Media types of key lists, requests and responses (RFC 9458, 9), and of unprotected problems (5.3).
const (
	KeysType     = "application/ohttp-keys"
	RequestType  = "message/ohttp-req"
	ResponseType = "message/ohttp-res"
	ProblemType  = "application/problem+json"
)

// KEMs are the KEMs that this package can do, in the order in which a gateway without other wishes lists them.
var KEMs = []sealwax.KEM{0x0020, 0x0010, 0x0011, 0x0012, 0x0021}

// Pairs are the pairs that this package can do.
var Pairs = []sealwax.Pair{
	{KDF: 1, AEAD: 1}, {KDF: 1, AEAD: 2}, {KDF: 1, AEAD: 3},
	{KDF: 2, AEAD: 1}, {KDF: 2, AEAD: 2}, {KDF: 2, AEAD: 3},
	{KDF: 3, AEAD: 1}, {KDF: 3, AEAD: 2}, {KDF: 3, AEAD: 3},
}

// suite is CIRCL's suite of these numbers; CIRCL panics where it does not know one.
func suite(number sealwax.KEM, pair sealwax.Pair) (hpke.Suite, error) {
	kemID, kdf, aead := hpke.KEM(number), hpke.KDF(pair.KDF), hpke.AEAD(pair.AEAD)
	if !kemID.IsValid() || !kdf.IsValid() || !aead.IsValid() {
		return hpke.Suite{}, fmt.Errorf("ohttp: no suite of KEM 0x%04x, KDF 0x%04x and AEAD 0x%04x", number, pair.KDF, pair.AEAD)
	}
	return hpke.NewSuite(kemID, kdf, aead), nil
}

// A Key is a gateway's private key.
type Key struct {
	number  sealwax.KEM
	private kem.PrivateKey
	public  []byte
}

// GenerateKey makes a fresh key.
func GenerateKey(number sealwax.KEM) (*Key, error) {
	if !hpke.KEM(number).IsValid() {
		return nil, fmt.Errorf("ohttp: no KEM 0x%04x", number)
	}
	_, private, err := hpke.KEM(number).Scheme().GenerateKeyPair()
	if err != nil {
		return nil, err
	}
	return newKey(number, private)
}

// ParseKey reads a private key as RFC 9180, 7.1.2 has it.
func ParseKey(number sealwax.KEM, private []byte) (*Key, error) {
	if !hpke.KEM(number).IsValid() {
		return nil, fmt.Errorf("ohttp: no KEM 0x%04x", number)
	}
	scheme := hpke.KEM(number).Scheme()
	// CIRCL panics on a private key that is too long, and on 0 of a NIST curve.
	if len(private) != scheme.PrivateKeySize() || bytes.Equal(private, make([]byte, len(private))) {
		return nil, hpke.ErrInvalidKEMPrivateKey
	}
	parsed, err := scheme.UnmarshalBinaryPrivateKey(private)
	if err != nil {
		return nil, err
	}
	// CIRCL tests the range of a private key only when it is to receive, so that is tried once.
	if _, err := hpke.NewSuite(hpke.KEM(number), 1, 1).NewReceiver(parsed, nil); err != nil {
		return nil, err
	}
	return newKey(number, parsed)
}

// newKey asks for the public key once: CIRCL computes it when first asked, into the private key, which many requests then share.
func newKey(number sealwax.KEM, private kem.PrivateKey) (*Key, error) {
	public, err := private.Public().MarshalBinary()
	if err != nil {
		return nil, err
	}
	return &Key{number, private, public}, nil
}

// KEM is the key's KEM.
func (k *Key) KEM() sealwax.KEM { return k.number }

// Public is the key's public key as it stands in a key list.
func (k *Key) Public() []byte { return k.public }

// Open opens an admitted request.
func (k *Key) Open(admission sealwax.Admission) (plain []byte, received *Received, err error) {
	suite, err := suite(k.number, admission.Pair)
	if err != nil {
		return nil, nil, err
	}
	receiver, err := suite.NewReceiver(k.private, admission.Info)
	if err != nil {
		return nil, nil, err
	}
	context, err := receiver.Setup(admission.Enc)
	if err != nil {
		return nil, nil, err
	}
	plain, err = context.Open(admission.Ciphertext, nil)
	if err != nil {
		return nil, nil, err
	}
	return plain, &Received{secrets{context, admission.Pair}}, nil
}

// Received is what a gateway keeps of a request that it opened.
type Received struct{ secrets }

// Nonce makes the random nonce of a response.
func (r *Received) Nonce() ([]byte, error) {
	_, length, err := sealwax.Exporter(r.pair.AEAD)
	if err != nil {
		return nil, err
	}
	nonce := make([]byte, length)
	_, err = rand.Read(nonce)
	return nonce, err
}

// Seal seals a response with the nonce, and the salt that the gateway answered for it.
func (r *Received) Seal(nonce []byte, response sealwax.Response, plain []byte) ([]byte, error) {
	aead, aeadNonce, err := r.derive(response.Salt)
	if err != nil {
		return nil, err
	}
	sealed := aead.Seal(append(make([]byte, 0, response.Length), nonce...), aeadNonce, plain, nil)
	if len(sealed) != response.Length {
		return nil, errors.New("ohttp: a sealed response of another length than the gateway answered")
	}
	return sealed, nil
}

// Seal seals a request to the chosen key.
func Seal(choice sealwax.Choice, plain []byte) (request []byte, sent *Sent, err error) {
	suite, err := suite(choice.KEM, choice.Pair)
	if err != nil {
		return nil, nil, err
	}
	scheme := hpke.KEM(choice.KEM).Scheme()
	public, err := scheme.UnmarshalBinaryPublicKey(choice.PublicKey)
	if err != nil {
		return nil, nil, err
	}
	// HPKE makes enc with info in hand, and the library writes info along with a head, which has enc. Info does not depend on enc, so
	// it is asked for with zeros in enc's place.
	_, info, err := sealwax.Head(choice, make([]byte, scheme.CiphertextSize()))
	if err != nil {
		return nil, nil, err
	}
	sender, err := suite.NewSender(public, info)
	if err != nil {
		return nil, nil, err
	}
	enc, context, err := sender.Setup(rand.Reader)
	if err != nil {
		return nil, nil, err
	}
	return sealWith(choice, enc, context, plain)
}

func sealWith(choice sealwax.Choice, enc []byte, context hpke.Sealer, plain []byte) (request []byte, sent *Sent, err error) {
	head, _, err := sealwax.Head(choice, enc)
	if err != nil {
		return nil, nil, err
	}
	ciphertext, err := context.Seal(plain, nil)
	if err != nil {
		return nil, nil, err
	}
	return append(head, ciphertext...), &Sent{secrets{context, choice.Pair}, enc}, nil
}

// Sent is what a client keeps of a request until its response.
type Sent struct {
	secrets
	enc []byte
}

// Open opens the response.
func (s *Sent) Open(response []byte) ([]byte, error) {
	nonce, ciphertext, err := sealwax.Split(s.pair.AEAD, response)
	if err != nil {
		return nil, err
	}
	// The library writes the salt for gateways only.
	salt := append(append([]byte{}, s.enc...), nonce...)
	aead, aeadNonce, err := s.derive(salt)
	if err != nil {
		return nil, err
	}
	return aead.Open(nil, aeadNonce, ciphertext, nil)
}

// secrets are what both sides derive a response's key and nonce from.
type secrets struct {
	context hpke.Context
	pair    sealwax.Pair
}

// derive derives a response's AEAD and its nonce (RFC 9458, 4.4).
func (s *secrets) derive(salt []byte) (cipher.AEAD, []byte, error) {
	label, length, err := sealwax.Exporter(s.pair.AEAD)
	if err != nil {
		return nil, nil, err
	}
	kdf, number := hpke.KDF(s.pair.KDF), hpke.AEAD(s.pair.AEAD)
	prk := kdf.Extract(s.context.Export(label, uint(length)), salt)
	aead, err := number.New(kdf.Expand(prk, []byte("key"), number.KeySize()))
	if err != nil {
		return nil, nil, err
	}
	return aead, kdf.Expand(prk, []byte("nonce"), uint(aead.NonceSize())), nil
}
