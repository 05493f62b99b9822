package sealwax

import (
	"bytes"
	"encoding/binary"
	"encoding/hex"
	"errors"
	"fmt"
	"sync"
	"testing"
)

// unhex reads hex, spaces aside.
func unhex(t *testing.T, digits string) []byte {
	t.Helper()
	b, err := hex.DecodeString(string(bytes.ReplaceAll([]byte(digits), []byte(" "), nil)))
	if err != nil {
		t.Fatal(err)
	}
	return b
}

// wants checks that an error is this refusal: number, place, status and problem type.
func wants(t *testing.T, err error, want Refusal) {
	t.Helper()
	var refusal *Refusal
	if !errors.As(err, &refusal) {
		t.Fatalf("got %v, want %v", err, &want)
	}
	if *refusal != want {
		t.Fatalf("got %+v, want %+v", *refusal, want)
	}
	if Sentence(refusal.Number) == "" || refusal.Error() == "" {
		t.Errorf("no sentence for %d", refusal.Number)
	}
}

// edgeList is 01's list: key id 7, KEM 0x0020, 32 bytes 11, pair (1, 3).
func edgeList(t *testing.T) []byte {
	list := unhex(t, "0029 07 0020")
	list = append(list, bytes.Repeat([]byte{0x11}, 32)...)
	return append(list, unhex(t, "0004 0001 0003")...)
}

// asked is a request of length bytes that begins with this head.
func asked(t *testing.T, head string, length int) []byte {
	request := make([]byte, length)
	copy(request, unhex(t, head))
	return request
}

func setup(t *testing.T, list []byte, keyCap uint64) *Gateway {
	t.Helper()
	gateway, err := Setup(list, keyCap)
	if err != nil {
		t.Fatal(err)
	}
	return gateway
}

func TestKeyList(t *testing.T) {
	list := edgeList(t)
	if n, skipped, err := Check(list); n != 1 || skipped != 0 || err != nil {
		t.Fatal(n, skipped, err)
	}
	key, err := PublicKey(list, 7)
	if err != nil || !bytes.Equal(key, list[5:37]) {
		t.Fatal(key, err)
	}
	_, err = PublicKey(list, 8)
	wants(t, err, Refusal{Number: NoSuchKey})
	for _, keyCap := range []uint64{0, 1_000_000_001, 1 << 63} {
		_, err = Setup(list, keyCap)
		wants(t, err, Refusal{Number: CapOutOfRange})
	}
}

// damaged is 01's list with another length and another pair length.
func damaged(t *testing.T, length, pairLength uint16) []byte {
	list := edgeList(t)
	binary.BigEndian.PutUint16(list, length)
	binary.BigEndian.PutUint16(list[37:], pairLength)
	return list
}

// Every reader of lists says what is wrong, where, and what stands there.
func TestDamagedLists(t *testing.T) {
	list := edgeList(t)
	var seventeen []byte
	for id := byte(0); id < 17; id++ {
		one := edgeList(t)
		one[2] = id
		seventeen = append(seventeen, one...)
	}
	for _, damage := range []struct {
		list          []byte
		number, place int
		found         string
	}{
		{nil, ListTruncated, 0, "there is no configuration at all"},
		{[]byte{}, ListTruncated, 0, "there is no configuration at all"},
		{append(edgeList(t), 0), ListTruncated, 43, "the list ends within the length at byte 43"},
		{damaged(t, 42, 4), ListTruncated, 0, "length at byte 0 is 42, but only 41 bytes follow"},
		{damaged(t, 41, 8), LengthMismatch, 0, "length at byte 0 is 41, but its fields need another length"},
		{unhex(t, "0002 07 00"), LengthMismatch, 0, "length at byte 0 is 2, but its fields need another length"},
		{damaged(t, 41, 6), BadPairLength, 37, "pair length at byte 37 is 6, not a multiple of 4"},
		{damaged(t, 41, 0), BadPairLength, 37, "pair length at byte 37 is 0, and there must be a pair"},
		{damaged(t, 41, 68), BadPairLength, 37, "pair length at byte 37 is 68, above 64"},
		{append(edgeList(t), list...), DuplicateKeyID, 45, "key id at byte 45 is 7, as that of an earlier configuration"},
		{seventeen, TooManyConfigurations, 688, "a seventeenth configuration at byte 688"},
		{seventeen[:689], TooManyConfigurations, 688, "a seventeenth configuration at byte 688"},
	} {
		want := Refusal{Number: damage.number, HasPlace: true, Place: damage.place, Found: damage.found}
		_, _, err := Check(damage.list)
		wants(t, err, want)
		if text := fmt.Sprintf("refusal %d: %s", damage.number, damage.found); err.Error() != text {
			t.Errorf("%q, want %q", err, text)
		}
		_, err = PublicKey(damage.list, 7)
		wants(t, err, want)
		_, err = Setup(damage.list, 1)
		wants(t, err, want)
		_, err = Choose(damage.list, nil, nil)
		wants(t, err, want)
	}
}

// A place is asked of the answer and not of the number: the list writer's unknown KEM has one, and others have none.
func TestPlace(t *testing.T) {
	_, err := WriteList([]Configuration{{7, 0x0030, make([]byte, 32), []Pair{{1, 3}}}})
	wants(t, err, Refusal{Number: UnknownKEM, HasPlace: true, Place: 3, Found: "KEM at byte 3 is unknown"})
	if err.Error() != "refusal 3: KEM at byte 3 is unknown" {
		t.Error(err)
	}
	_, _, err = Head(Choice{KeyID: 7, KEM: 0x0030, Pair: Pair{1, 3}}, make([]byte, 32))
	wants(t, err, Refusal{Number: UnknownKEM})
	if err.Error() != "refusal 3: KEM unknown" {
		t.Error(err)
	}
}

func TestWriteList(t *testing.T) {
	one := Configuration{ID: 7, KEM: 0x0020, PublicKey: bytes.Repeat([]byte{0x11}, 32), Pairs: []Pair{{1, 3}}}
	list, err := WriteList([]Configuration{one})
	if err != nil || !bytes.Equal(list, edgeList(t)) {
		t.Fatal(list, err)
	}
	_, err = WriteList([]Configuration{one, one})
	wants(t, err, Refusal{Number: DuplicateKeyID, HasPlace: true, Place: 45, Found: "key id at byte 45 is that of an earlier configuration"})
	_, err = WriteList(nil)
	wants(t, err, Refusal{Number: ListTruncated, HasPlace: true, Found: "there is no configuration at all"})
	_, err = WriteList([]Configuration{one, {ID: 8, KEM: 0x0020, PublicKey: one.PublicKey[:31]}})
	wants(t, err, Refusal{Number: LengthMismatch, HasPlace: true, Place: 43,
		Found: "public key of the configuration at byte 43 is not as long as its KEM's keys"})
	_, err = WriteList([]Configuration{one, {ID: 8, KEM: 0x0020, PublicKey: one.PublicKey}})
	wants(t, err, Refusal{Number: BadPairLength, HasPlace: true, Place: 80,
		Found: "pair length at byte 80 would not be 4 to 64: there must be 1 to 16 pairs"})

	// The longest list there is: sixteen of the longest key with sixteen pairs.
	var most []Configuration
	for id := 0; id < MostKeys; id++ {
		most = append(most, Configuration{KeyID(id), 0x0012, make([]byte, 133), make([]Pair, 16)})
	}
	list, err = WriteList(most)
	if err != nil || len(list) != LongestList {
		t.Fatal(len(list), err)
	}
	if n, skipped, err := Check(list); n != MostKeys || skipped != 0 || err != nil {
		t.Fatal(n, skipped, err)
	}
	_, err = WriteList(append(most, one))
	wants(t, err, Refusal{Number: TooManyConfigurations, HasPlace: true, Place: LongestList,
		Found: fmt.Sprintf("a seventeenth configuration at byte %d", LongestList)})
}

// A configuration with an unknown KEM is skipped, here one of 3 bytes with the key id of the one that is read.
func TestSkipped(t *testing.T) {
	unknown := unhex(t, "0003 07 0030")
	list := append(unhex(t, "0003 07 0030"), edgeList(t)...)
	if n, skipped, err := Check(list); n != 1 || skipped != 1 || err != nil {
		t.Fatal(n, skipped, err)
	}
	key, err := PublicKey(list, 7)
	if err != nil || !bytes.Equal(key, list[10:42]) {
		t.Fatal(key, err)
	}
	choice, err := Choose(list, []KEM{0x0030, 0x0020}, []Pair{{1, 3}})
	if err != nil || choice.KEM != 0x0020 || !bytes.Equal(choice.PublicKey, list[10:42]) {
		t.Fatal(choice, err)
	}
	if report := setup(t, list, 1).Report(); len(report.Keys) != 1 {
		t.Fatal(report)
	}
	// Where all are skipped, the list is good and there is no key.
	if n, skipped, err := Check(unknown); n != 0 || skipped != 1 || err != nil {
		t.Fatal(n, skipped, err)
	}
	if report := setup(t, unknown, 1).Report(); len(report.Keys) != 0 {
		t.Fatal(report)
	}
	_, err = PublicKey(unknown, 7)
	wants(t, err, Refusal{Number: NoSuchKey})
	_, err = Choose(unknown, []KEM{0x0030, 0x0020}, []Pair{{1, 3}})
	wants(t, err, Refusal{Number: NoUsableConfiguration})
}

// TestEdges goes through 01's edges.
func TestEdges(t *testing.T) {
	const head = "07 0020 0001 0003"
	gateway := setup(t, edgeList(t), 2)
	for _, refused := range []struct {
		request []byte
		want    Refusal
	}{
		{nil, Refusal{Number: TooShort, Status: 400}},
		{[]byte{}, Refusal{Number: TooShort, Status: 400}},
		{asked(t, head, 54), Refusal{Number: TooShort, Status: 400}},
		{make([]byte, LongestRequest+1), Refusal{Number: TooLong, Status: 413}},
		{asked(t, "07 0030 0001 0003", 55), Refusal{Number: UnknownKEM, Status: 400}},
		{asked(t, "08 0020 0001 0003", 55), Refusal{Number: NoSuchKey, Status: 400, Problem: OHTTPKey}},
		{asked(t, "07 0010 0001 0003", 88), Refusal{Number: OtherKEM, Status: 400, Problem: OHTTPKey}},
		{asked(t, "07 0020 0001 0001", 55), Refusal{Number: PairNotOffered, Status: 400, Problem: OHTTPKey}},
	} {
		_, err := gateway.Admit(refused.request)
		wants(t, err, refused.want)
	}
	if report := gateway.Report(); report.LastTicket != 0 || report.Pending != 0 || report.Keys[0].Count != 0 {
		t.Fatalf("refusals changed the gateway: %+v", report)
	}

	request := asked(t, head, 55)
	one, err := gateway.Admit(request)
	if err != nil {
		t.Fatal(err)
	}
	if one.Ticket != 1 || one.KeyID != 7 || one.Pair != (Pair{1, 3}) {
		t.Errorf("%+v", one)
	}
	if &one.Enc[0] != &request[7] || len(one.Enc) != 32 || &one.Ciphertext[0] != &request[39] || len(one.Ciphertext) != 16 {
		t.Error("enc or ciphertext is not that part of the request")
	}
	if !bytes.Equal(one.Info, unhex(t, "6d6573736167652f626874747020726571756573740007002000010003")) {
		t.Errorf("info %x", one.Info)
	}
	two, err := gateway.Admit(asked(t, head, LongestRequest))
	if err != nil || two.Ticket != 2 || len(two.Ciphertext) != LongestRequest-39 {
		t.Fatal(two.Ticket, len(two.Ciphertext), err)
	}
	_, err = gateway.Admit(request)
	wants(t, err, Refusal{Number: KeyUsedUp, Status: 400, Problem: OHTTPKey})

	// Steps out of turn.
	nonce := make([]byte, 32)
	_, err = gateway.Respond(1, one.Enc, nonce, 0)
	wants(t, err, Refusal{Number: StepNotAllowed})
	wants(t, gateway.Opened(1, 1), Refusal{Number: WrongLength})
	wants(t, gateway.Opened(1, -1), Refusal{Number: WrongLength})
	wants(t, gateway.Opened(0, 0), Refusal{Number: NotPending})
	if err := gateway.Opened(1, 0); err != nil {
		t.Fatal(err)
	}
	wants(t, gateway.Opened(1, 0), Refusal{Number: StepNotAllowed})
	for _, wrong := range []struct {
		enc, nonce []byte
		length     int
	}{
		{one.Enc[:31], nonce, 0}, {nil, nonce, 0}, {one.Enc, nonce[:12], 0}, {one.Enc, nil, 0}, {one.Enc, nonce, 65537},
	} {
		_, err = gateway.Respond(1, wrong.enc, wrong.nonce, wrong.length)
		wants(t, err, Refusal{Number: WrongLength})
	}

	// Ticket 2 is answered before 1.
	status, err := gateway.NotOpened(2)
	if status != 422 || err != nil {
		t.Fatal(status, err)
	}
	copy(nonce, "nonce")
	response, err := gateway.Respond(1, one.Enc, nonce, 65536)
	if err != nil || response.Status != 200 || response.Length != LongestResponse {
		t.Fatal(response.Status, response.Length, err)
	}
	if !bytes.Equal(response.Salt, append(append([]byte{}, one.Enc...), nonce...)) {
		t.Errorf("salt %x", response.Salt)
	}
	_, err = gateway.Respond(1, one.Enc, nonce, 0)
	wants(t, err, Refusal{Number: NotPending})
	wants(t, gateway.Abandon(2), Refusal{Number: NotPending})

	wants(t, gateway.Retire(8), Refusal{Number: NoSuchKey})
	if err := gateway.Retire(7); err != nil {
		t.Fatal(err)
	}
	wants(t, gateway.Retire(7), Refusal{Number: KeyRetired})
	_, err = gateway.Admit(request)
	wants(t, err, Refusal{Number: KeyRetired, Status: 400, Problem: OHTTPKey})
	report := gateway.Report()
	if report.LastTicket != 2 || report.Pending != 0 || len(report.Keys) != 1 || report.Keys[0] != (KeyReport{7, 2, true}) {
		t.Errorf("%+v", report)
	}
}

func TestTableFull(t *testing.T) {
	gateway := setup(t, edgeList(t), 1000)
	request := asked(t, "07 0020 0001 0003", 55)
	for ticket := Ticket(1); ticket <= 128; ticket++ {
		if admission, err := gateway.Admit(request); err != nil || admission.Ticket != ticket {
			t.Fatal(admission.Ticket, err)
		}
	}
	_, err := gateway.Admit(request)
	wants(t, err, Refusal{Number: TableFull, Status: 503})
	if err := gateway.Abandon(77); err != nil {
		t.Fatal(err)
	}
	if admission, err := gateway.Admit(request); err != nil || admission.Ticket != 129 {
		t.Fatal(admission.Ticket, err)
	}
	if report := gateway.Report(); report.Pending != 128 || report.Keys[0].Count != 129 {
		t.Errorf("%+v", report)
	}
}

// Both searches find a ticket at its home, or where its home is taken at the first place that was free, and no ticket that is not pending.
func TestSearches(t *testing.T) {
	gateway := setup(t, edgeList(t), 1000)
	request := asked(t, "07 0020 0001 0003", 55)
	finds := func(ticket, near Ticket, byHome, byWalk int) {
		t.Helper()
		if home, walk := gateway.Find(ticket, near), gateway.PlainFind(ticket); home != byHome || walk != byWalk {
			t.Errorf("ticket %d near %d: found at %d by home and at %d by the walk, not at %d and %d", ticket, near, home, walk, byHome, byWalk)
		}
	}
	finds(0, 5, 5, 0)
	for ticket := Ticket(1); ticket <= 128; ticket++ {
		if _, err := gateway.Admit(request); err != nil {
			t.Fatal(err)
		}
		finds(ticket, ticket, int(ticket%128), int(ticket%128))
	}
	finds(0, 129, 128, 128)
	if err := gateway.Abandon(64); err != nil {
		t.Fatal(err)
	}
	if _, err := gateway.Admit(request); err != nil {
		t.Fatal(err)
	}
	finds(129, 129, 64, 64)
	finds(64, 64, 128, 128)
	if report := gateway.Report(); report.LastTicket != 129 || report.Pending != 128 {
		t.Errorf("%+v", report)
	}
}

func TestClientSide(t *testing.T) {
	list := edgeList(t)
	choice, err := Choose(list, []KEM{0x0010, 0x0020}, []Pair{{1, 1}, {1, 3}})
	if err != nil {
		t.Fatal(err)
	}
	if choice.KeyID != 7 || choice.KEM != 0x0020 || choice.Pair != (Pair{1, 3}) || &choice.PublicKey[0] != &list[5] {
		t.Errorf("%+v", choice)
	}
	for _, cannot := range []struct {
		kems  []KEM
		pairs []Pair
	}{
		{nil, []Pair{{1, 3}}}, {[]KEM{0x0020}, nil}, {[]KEM{0x0010}, []Pair{{1, 3}}}, {[]KEM{0x0020}, []Pair{{3, 1}}},
	} {
		_, err := Choose(list, cannot.kems, cannot.pairs)
		wants(t, err, Refusal{Number: NoUsableConfiguration})
	}

	enc := bytes.Repeat([]byte{0x22}, 32)
	head, info, err := Head(choice, enc)
	if err != nil || !bytes.Equal(head, append(unhex(t, "07 0020 0001 0003"), enc...)) {
		t.Errorf("head %x, %v", head, err)
	}
	if !bytes.Equal(info, unhex(t, "6d6573736167652f626874747020726571756573740007002000010003")) {
		t.Errorf("info %x", info)
	}
	_, _, err = Head(choice, nil)
	wants(t, err, Refusal{Number: WrongLength})
	_, _, err = Head(Choice{KEM: 0x0030}, enc)
	wants(t, err, Refusal{Number: UnknownKEM})
	_, _, err = Head(Choice{KEM: 0x0020, Pair: Pair{1, 0xffff}}, enc)
	wants(t, err, Refusal{Number: PairNotOffered})

	// The nonce has 16, 32 and 32 bytes, and so has the secret.
	for aead, length := range map[AEAD]int{1: 16, 2: 32, 3: 32} {
		context, secret, err := Exporter(aead)
		if err != nil || string(context) != "message/bhttp response" || secret != length {
			t.Errorf("exporter of %d: %q, %d, %v", aead, context, secret, err)
		}
		response := make([]byte, length+17)
		nonce, ciphertext, err := Split(aead, response)
		if err != nil || len(nonce) != length || len(ciphertext) != 17 || &nonce[0] != &response[0] || &ciphertext[0] != &response[length] {
			t.Errorf("split of %d: %d and %d, %v", aead, len(nonce), len(ciphertext), err)
		}
		_, _, err = Split(aead, response[:length+15])
		wants(t, err, Refusal{Number: TooShort})
		_, _, err = Split(aead, make([]byte, length+65553))
		wants(t, err, Refusal{Number: TooLong})
		_, _, err = Split(aead, nil)
		wants(t, err, Refusal{Number: TooShort})
	}
	_, _, err = Exporter(0xffff)
	wants(t, err, Refusal{Number: PairNotOffered})
	_, _, err = Split(4, nil)
	wants(t, err, Refusal{Number: PairNotOffered})
}

// One gateway, one lock: calls at the same time lose no use, no ticket and no place.
func TestLock(t *testing.T) {
	const callers, exchanges = 8, 4000
	gateway := setup(t, edgeList(t), callers*exchanges)
	request := asked(t, "07 0020 0001 0003", 55)
	var (
		callersDone sync.WaitGroup
		lock        sync.Mutex
		seen        = map[Ticket]bool{}
	)
	for i := 0; i < callers; i++ {
		callersDone.Add(1)
		go func(end int) {
			defer callersDone.Done()
			var tickets []Ticket
			for n := 0; n < exchanges; n++ {
				admission, err := gateway.Admit(request)
				if err != nil {
					t.Error(err)
					return
				}
				tickets = append(tickets, admission.Ticket)
				switch (n + end) % 3 {
				case 0:
					_, err = gateway.NotOpened(admission.Ticket)
				case 1:
					err = gateway.Abandon(admission.Ticket)
				case 2:
					if err = gateway.Opened(admission.Ticket, 0); err == nil {
						_, err = gateway.Respond(admission.Ticket, admission.Enc, make([]byte, 32), 0)
					}
				}
				if err != nil {
					t.Error(err)
					return
				}
				gateway.Report()
			}
			lock.Lock()
			defer lock.Unlock()
			for _, ticket := range tickets {
				seen[ticket] = true
			}
		}(i)
	}
	callersDone.Wait()
	report := gateway.Report()
	if report.LastTicket != callers*exchanges || report.Pending != 0 || report.Keys[0].Count != callers*exchanges {
		t.Errorf("%+v", report)
	}
	if len(seen) != callers*exchanges {
		t.Errorf("%d tickets for %d admissions", len(seen), callers*exchanges)
	}
}

// Each number has its own sentence, so that what goes out tells refusals apart.
func TestSentences(t *testing.T) {
	seen := map[string]int{}
	for number := TooShort; number <= TooManyConfigurations; number++ {
		if number == 10 || number == 15 { // kept free, and no longer given
			continue
		}
		sentence := Sentence(number)
		if other, there := seen[sentence]; there || sentence == "" {
			t.Errorf("%d has the sentence %q, and so has %d", number, sentence, other)
		}
		seen[sentence] = number
	}
}
