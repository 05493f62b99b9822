package ohttp

import (
	"bytes"
	"crypto/sha256"
	"encoding/binary"
	"encoding/hex"
	"io"
	"strings"
	"testing"

	"sealwax"

	"github.com/cloudflare/circl/dh/x25519"
	"github.com/cloudflare/circl/hpke"
	"golang.org/x/crypto/cryptobyte"
	"golang.org/x/crypto/hkdf"
)

// RFC 9458, Appendix A. The list is the configuration behind its length. The appendix says Content-Length: 38 of a response that has 35
// bytes; it is the bytes that count.
var appendix = struct {
	secretKey, configuration, request, ephemeral, enc, info, encapsulated, response, secret, salt, nonce, sealed []byte
}{
	secretKey:     appendixBytes("3c168975674b2fa8e465970b79c8dcf09f1c741626480bd4c6162fc5b6a98e1a"),
	configuration: appendixBytes("01002031e1f05a740102115220e9af918f738674aec95f54db6e04eb705aae8e 79815500080001000100010003"),
	request:       appendixBytes("00034745540568747470730b6578616d706c652e636f6d012f"),
	ephemeral:     appendixBytes("bc51d5e930bda26589890ac7032f70ad12e4ecb37abb1b65b1256c9c48999c73"),
	enc:           appendixBytes("4b28f881333e7c164ffc499ad9796f877f4e1051ee6d31bad19dec96c208b472"),
	info:          appendixBytes("6d6573736167652f626874747020726571756573740001002000010001"),
	encapsulated: appendixBytes("010020000100014b28f881333e7c164ffc499ad9796f877f4e1051ee6d31bad1" +
		"9dec96c208b4726374e469135906992e1268c594d2a10c695d858c40a026e796 5e7d86b83dd440b2c0185204b4d63525"),
	response: appendixBytes("0140c8"),
	secret:   appendixBytes("62d87a6ba569ee81014c2641f52bea36"),
	salt: appendixBytes("4b28f881333e7c164ffc499ad9796f877f4e1051ee6d31bad19dec96c208b472" +
		"c789e7151fcba46158ca84b04464910d"),
	nonce:  appendixBytes("c789e7151fcba46158ca84b04464910d"),
	sealed: appendixBytes("c789e7151fcba46158ca84b04464910d86f9013e404feea014e7be4a441f234f 857fbd"),
}

func appendixBytes(digits string) []byte {
	b, err := hex.DecodeString(strings.ReplaceAll(digits, " ", ""))
	if err != nil {
		panic(err)
	}
	return b
}

func appendixList() []byte {
	return append([]byte{0, byte(len(appendix.configuration))}, appendix.configuration...)
}

func equal(t *testing.T, what string, got, want []byte) {
	t.Helper()
	if !bytes.Equal(got, want) {
		t.Errorf("%s is %x, want %x", what, got, want)
	}
}

// The gateway's side: list, admission, opening, response.
func TestAppendixGateway(t *testing.T) {
	key, err := ParseKey(0x0020, appendix.secretKey)
	if err != nil {
		t.Fatal(err)
	}
	list := appendixList()
	if n, skipped, err := sealwax.Check(list); n != 1 || skipped != 0 || err != nil {
		t.Fatal(n, err)
	}
	public, err := sealwax.PublicKey(list, 1)
	if err != nil {
		t.Fatal(err)
	}
	equal(t, "public key", public, key.Public())
	written, err := sealwax.WriteList([]sealwax.Configuration{
		{ID: 1, KEM: 0x0020, PublicKey: key.Public(), Pairs: []sealwax.Pair{{KDF: 1, AEAD: 1}, {KDF: 1, AEAD: 3}}},
	})
	if err != nil {
		t.Fatal(err)
	}
	equal(t, "written list", written, list)

	gateway, err := sealwax.Setup(list, 1)
	if err != nil {
		t.Fatal(err)
	}
	admission, err := gateway.Admit(appendix.encapsulated)
	if err != nil {
		t.Fatal(err)
	}
	equal(t, "info", admission.Info, appendix.info)
	equal(t, "enc", admission.Enc, appendix.enc)
	plain, received, err := key.Open(admission)
	if err != nil {
		t.Fatal(err)
	}
	equal(t, "request", plain, appendix.request)
	if err := gateway.Opened(admission.Ticket, len(plain)); err != nil {
		t.Fatal(err)
	}
	label, length, err := sealwax.Exporter(admission.Pair.AEAD)
	if err != nil {
		t.Fatal(err)
	}
	equal(t, "secret", received.context.Export(label, uint(length)), appendix.secret)
	if fresh, err := received.Nonce(); err != nil || len(fresh) != len(appendix.nonce) {
		t.Fatal(len(fresh), err)
	}
	response, err := gateway.Respond(admission.Ticket, admission.Enc, appendix.nonce, len(appendix.response))
	if err != nil || response.Status != 200 {
		t.Fatal(response.Status, err)
	}
	equal(t, "salt", response.Salt, appendix.salt)
	sealed, err := received.Seal(appendix.nonce, response, appendix.response)
	if err != nil {
		t.Fatal(err)
	}
	equal(t, "encapsulated response", sealed, appendix.sealed)
}

// The client's side: choice, head, request, and the response opened.
func TestAppendixClient(t *testing.T) {
	choice, err := sealwax.Choose(appendixList(), KEMs, Pairs)
	if err != nil {
		t.Fatal(err)
	}
	head, info, err := sealwax.Head(choice, appendix.enc)
	if err != nil {
		t.Fatal(err)
	}
	equal(t, "head", head, appendix.encapsulated[:7+32])
	equal(t, "info", info, appendix.info)
	request, sent, err := sealWith(choice, appendix.enc, appendixSender(t, choice.PublicKey), appendix.request)
	if err != nil {
		t.Fatal(err)
	}
	equal(t, "encapsulated request", request, appendix.encapsulated)
	plain, err := sent.Open(appendix.sealed)
	if err != nil {
		t.Fatal(err)
	}
	equal(t, "response", plain, appendix.response)
	for i := range appendix.sealed {
		damaged := append([]byte{}, appendix.sealed...)
		damaged[i] ^= 1
		if _, err := sent.Open(damaged); err == nil {
			t.Errorf("a response damaged at %d was opened", i)
		}
	}
}

// appendixSender makes the sending context of the appendix's ephemeral secret key. CIRCL takes a seed and no secret key, so the context
// is derived here (RFC 9180, 4.1 and 5.1, base mode) and handed to CIRCL in its own form.
func appendixSender(t *testing.T, public []byte) hpke.Sealer {
	var secret, ephemeral, enc, receiver x25519.Key
	copy(ephemeral[:], appendix.ephemeral)
	copy(receiver[:], public)
	x25519.KeyGen(&enc, &ephemeral)
	equal(t, "public key of the ephemeral secret key", enc[:], appendix.enc)
	if !x25519.Shared(&secret, &ephemeral, &receiver) {
		t.Fatal("no shared secret")
	}

	kemSuite := append([]byte("KEM"), 0x00, 0x20)
	suite := append([]byte("HPKE"), 0x00, 0x20, 0x00, 0x01, 0x00, 0x01)
	prk := labeledExtract(kemSuite, nil, "eae_prk", secret[:])
	shared := labeledExpand(t, kemSuite, prk, "shared_secret", append(enc[:], public...), 32)
	schedule := append([]byte{0}, labeledExtract(suite, nil, "psk_id_hash", nil)...)
	schedule = append(schedule, labeledExtract(suite, nil, "info_hash", appendix.info)...)
	prk = labeledExtract(suite, shared, "secret", nil)

	var b cryptobyte.Builder
	b.AddBytes([]byte{0, 0x00, 0x20, 0x00, 0x01, 0x00, 0x01})
	for _, part := range [][]byte{
		labeledExpand(t, suite, prk, "exp", schedule, 32),
		labeledExpand(t, suite, prk, "key", schedule, 16),
		labeledExpand(t, suite, prk, "base_nonce", schedule, 12),
		make([]byte, 12),
	} {
		b.AddUint8LengthPrefixed(func(b *cryptobyte.Builder) { b.AddBytes(part) })
	}
	sealer, err := hpke.UnmarshalSealer(b.BytesOrPanic())
	if err != nil {
		t.Fatal(err)
	}
	return sealer
}

func labeledExtract(suite, salt []byte, label string, ikm []byte) []byte {
	return hkdf.Extract(sha256.New, bytes.Join([][]byte{[]byte("HPKE-v1"), suite, []byte(label), ikm}, nil), salt)
}

func labeledExpand(t *testing.T, suite, prk []byte, label string, info []byte, length uint16) []byte {
	labeled := binary.BigEndian.AppendUint16(nil, length)
	labeled = append(labeled, bytes.Join([][]byte{[]byte("HPKE-v1"), suite, []byte(label), info}, nil)...)
	out := make([]byte, length)
	if _, err := io.ReadFull(hkdf.Expand(sha256.New, prk, labeled), out); err != nil {
		t.Fatal(err)
	}
	return out
}
