// Prints what one HPKE opening takes, in nanoseconds: the best of several batches.
//
// An opening is what a gateway does for each request: Setup of a receiver with the request's enc, then Open of its ciphertext. X25519,
// HKDF-SHA256 and AES-128-GCM, and a request of 200 bytes. The receiver is made once, as it can be for each key and pair.
package main

import (
	"crypto/rand"
	"fmt"
	"log"
	"time"

	"github.com/cloudflare/circl/hpke"
)

// Short batches: among many, some are not disturbed by what else the machine does.
const (
	batches         = 1000
	openingsInBatch = 10
	requestLength   = 200
	headLength      = 7
	encLength       = 32
	tagLength       = 16
)

// A receiver, and what it is to open.
type sealed struct {
	receiver   *hpke.Receiver
	enc        []byte
	ciphertext []byte
}

func seal() (sealed, error) {
	kem := hpke.KEM_X25519_HKDF_SHA256
	suite := hpke.NewSuite(kem, hpke.KDF_HKDF_SHA256, hpke.AEAD_AES128GCM)
	info := []byte("message/bhttp request\x00\x01\x00\x20\x00\x01\x00\x01")
	publicKey, privateKey, err := kem.Scheme().GenerateKeyPair()
	if err != nil {
		return sealed{}, err
	}
	receiver, err := suite.NewReceiver(privateKey, info)
	if err != nil {
		return sealed{}, err
	}
	sender, err := suite.NewSender(publicKey, info)
	if err != nil {
		return sealed{}, err
	}
	enc, sealer, err := sender.Setup(rand.Reader)
	if err != nil {
		return sealed{}, err
	}
	plain := make([]byte, requestLength-headLength-encLength-tagLength)
	ciphertext, err := sealer.Seal(plain, nil)
	return sealed{receiver, enc, ciphertext}, err
}

func open(request sealed) error {
	opener, err := request.receiver.Setup(request.enc)
	if err != nil {
		return err
	}
	_, err = opener.Open(request.ciphertext, nil)
	return err
}

func timeBatch(request sealed) (time.Duration, error) {
	start := time.Now()
	for i := 0; i < openingsInBatch; i++ {
		if err := open(request); err != nil {
			return 0, err
		}
	}
	return time.Since(start), nil
}

func main() {
	request, err := seal()
	if err != nil {
		log.Fatal(err)
	}
	var best time.Duration
	for batch := 0; batch < batches; batch++ {
		took, err := timeBatch(request)
		if err != nil {
			log.Fatal(err)
		}
		if batch == 0 || took < best {
			best = took
		}
	}
	fmt.Println(best.Nanoseconds() / openingsInBatch)
}
