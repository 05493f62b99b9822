package ohttp

import (
	"bytes"
	"crypto/aes"
	"crypto/cipher"
	"crypto/sha256"
	"crypto/sha512"
	"hash"
	"io"
	"sync"
	"testing"

	"sealwax"

	"github.com/cloudflare/circl/hpke"
	"golang.org/x/crypto/chacha20poly1305"
	"golang.org/x/crypto/hkdf"
)

func TestKeys(t *testing.T) {
	for _, kem := range KEMs {
		key, err := GenerateKey(kem)
		if err != nil {
			t.Fatal(err)
		}
		private, err := key.private.MarshalBinary()
		if err != nil {
			t.Fatal(err)
		}
		again, err := ParseKey(kem, private)
		if err != nil || !bytes.Equal(again.Public(), key.Public()) || again.KEM() != kem {
			t.Errorf("KEM 0x%04x: a parsed key is another, %v", uint16(kem), err)
		}
		for _, wrong := range [][]byte{nil, private[1:], append(private, 0), make([]byte, len(private))} {
			if _, err := ParseKey(kem, wrong); err == nil {
				t.Errorf("KEM 0x%04x: a wrong private key of %d bytes was taken", uint16(kem), len(wrong))
			}
		}
		if kem <= 0x0012 { // of a NIST curve, and not below the order
			if _, err := ParseKey(kem, bytes.Repeat([]byte{0xff}, len(private))); err == nil {
				t.Errorf("KEM 0x%04x: a private key out of range was taken", uint16(kem))
			}
		}
	}
	if _, err := GenerateKey(0x0030); err == nil {
		t.Error("a key of an unknown KEM")
	}
	if _, err := ParseKey(0x0030, nil); err == nil {
		t.Error("a key of an unknown KEM")
	}
}

// A good list may hold a public key that is no point of its curve, or one of low order: to seal to it is an error, and no panic.
func TestSealToNoKey(t *testing.T) {
	for _, kem := range KEMs {
		length := hpke.KEM(kem).Scheme().PublicKeySize()
		choice := sealwax.Choice{KEM: kem, Pair: Pairs[0], PublicKey: make([]byte, length)}
		if _, _, err := Seal(choice, nil); err == nil {
			t.Errorf("KEM 0x%04x: sealed to a public key of zeros", uint16(kem))
		}
	}
	if _, _, err := Seal(sealwax.Choice{KEM: 0x0020, Pair: sealwax.Pair{KDF: 1, AEAD: 0xffff}}, nil); err == nil {
		t.Error("sealed with an AEAD that is none")
	}
}

// An enc that is no public key fails to open and does not panic.
func TestOpenNoEnc(t *testing.T) {
	for _, kem := range KEMs {
		key, err := GenerateKey(kem)
		if err != nil {
			t.Fatal(err)
		}
		for _, fill := range []byte{0x00, 0x04, 0xff} {
			enc := bytes.Repeat([]byte{fill}, len(key.Public()))
			enc[0] = 0x04
			if _, _, err := key.Open(sealwax.Admission{Pair: Pairs[0], Enc: enc, Ciphertext: make([]byte, 16)}); err == nil {
				t.Errorf("KEM 0x%04x: opened", uint16(kem))
			}
		}
	}
}

// A key opens many requests at the same time, from its first one on. Without more between them, the race detector sees what they share.
func TestKeyIsShared(t *testing.T) {
	for _, kem := range KEMs {
		key, err := GenerateKey(kem)
		if err != nil {
			t.Fatal(err)
		}
		choice := sealwax.Choice{KEM: kem, Pair: Pairs[0], PublicKey: key.Public()}
		request, _, err := Seal(choice, []byte("request"))
		if err != nil {
			t.Fatal(err)
		}
		enc := request[7 : 7+len(key.Public())]
		_, info, err := sealwax.Head(choice, enc)
		if err != nil {
			t.Fatal(err)
		}
		admission := sealwax.Admission{Pair: choice.Pair, Enc: enc, Ciphertext: request[7+len(enc):], Info: info}
		begin := make(chan struct{})
		var done sync.WaitGroup
		for i := 0; i < 16; i++ {
			done.Add(1)
			go func() {
				defer done.Done()
				<-begin
				if plain, _, err := key.Open(admission); err != nil || string(plain) != "request" {
					t.Errorf("KEM 0x%04x: opened %q, %v", uint16(key.KEM()), plain, err)
				}
			}()
		}
		close(begin)
		done.Wait()
	}
}

// Client and gateway share the derivation of a response's key, so a fault in it would cancel out: here a response of every suite is
// opened by other means, RFC 9458, 4.4 written out with other packages. The appendix has one suite only.
func TestResponsesOfEverySuite(t *testing.T) {
	hashes := map[sealwax.KDF]func() hash.Hash{1: sha256.New, 2: sha512.New384, 3: sha512.New}
	gcm := func(key []byte) (cipher.AEAD, error) {
		block, err := aes.NewCipher(key)
		if err != nil {
			return nil, err
		}
		return cipher.NewGCM(block)
	}
	aeads := map[sealwax.AEAD]struct {
		keyLength int
		make      func([]byte) (cipher.AEAD, error)
	}{1: {16, gcm}, 2: {32, gcm}, 3: {32, chacha20poly1305.New}}

	for _, kem := range KEMs {
		key, err := GenerateKey(kem)
		if err != nil {
			t.Fatal(err)
		}
		list, err := sealwax.WriteList([]sealwax.Configuration{{ID: 7, KEM: kem, PublicKey: key.Public(), Pairs: Pairs}})
		if err != nil {
			t.Fatal(err)
		}
		gateway, err := sealwax.Setup(list, 9)
		if err != nil {
			t.Fatal(err)
		}
		for _, pair := range Pairs {
			choice, err := sealwax.Choose(list, []sealwax.KEM{kem}, []sealwax.Pair{pair})
			if err != nil {
				t.Fatal(err)
			}
			request, sent, err := Seal(choice, []byte("request"))
			if err != nil {
				t.Fatal(err)
			}
			admission, err := gateway.Admit(request)
			if err != nil {
				t.Fatal(err)
			}
			plain, received, err := key.Open(admission)
			if err != nil || string(plain) != "request" {
				t.Fatalf("KEM 0x%04x, %v: opened %q, %v", uint16(kem), pair, plain, err)
			}
			if err := gateway.Opened(admission.Ticket, len(plain)); err != nil {
				t.Fatal(err)
			}
			nonce, err := received.Nonce()
			if err != nil {
				t.Fatal(err)
			}
			response, err := gateway.Respond(admission.Ticket, admission.Enc, nonce, len("response"))
			if err != nil {
				t.Fatal(err)
			}
			sealed, err := received.Seal(nonce, response, []byte("response"))
			if err != nil {
				t.Fatal(err)
			}
			if plain, err := sent.Open(sealed); err != nil || string(plain) != "response" {
				t.Errorf("KEM 0x%04x, %v: the client opened %q, %v", uint16(kem), pair, plain, err)
			}

			keyLength := aeads[pair.AEAD].keyLength // above Nn, so it is the length of nonce and secret
			enc := request[7 : len(request)-len("request")-16]
			secret := sent.context.Export([]byte("message/bhttp response"), uint(keyLength))
			salt := append(append([]byte{}, enc...), sealed[:keyLength]...)
			prk := hkdf.Extract(hashes[pair.KDF], secret, salt)
			aeadKey, aeadNonce := make([]byte, keyLength), make([]byte, 12)
			for label, out := range map[string][]byte{"key": aeadKey, "nonce": aeadNonce} {
				if _, err := io.ReadFull(hkdf.Expand(hashes[pair.KDF], prk, []byte(label)), out); err != nil {
					t.Fatal(err)
				}
			}
			aead, err := aeads[pair.AEAD].make(aeadKey)
			if err != nil {
				t.Fatal(err)
			}
			if plain, err := aead.Open(nil, aeadNonce, sealed[keyLength:], nil); err != nil || string(plain) != "response" {
				t.Errorf("KEM 0x%04x, %v: opened by other means %q, %v", uint16(kem), pair, plain, err)
			}
		}
	}
}
