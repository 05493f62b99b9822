package gateway

import (
	"encoding/json"
	"fmt"
	"net/http"
	"sort"
	"strconv"
	"strings"

	"sealwax"
)

// A Status is what the status page shows: the library's report, and the service's tally.
type Status struct {
	Cap        uint64         `json:"cap"`
	LastTicket sealwax.Ticket `json:"last_ticket"`
	Pending    int            `json:"pending"`
	Keys       []KeyStatus    `json:"keys"`
	Tally
}

// A KeyStatus is a key's line of the status page.
type KeyStatus struct {
	ID      sealwax.KeyID `json:"id"`
	KEM     sealwax.KEM   `json:"kem"`
	Count   uint32        `json:"count"`
	Retired bool          `json:"retired"`
}

// Status reads the status. Report and tally have each their own lock: while requests are answered they may be a request apart.
func (s *Service) Status() Status {
	report := s.gateway.Report()
	status := Status{Cap: s.config.Cap, LastTicket: report.LastTicket, Pending: report.Pending}
	for i, key := range report.Keys {
		status.Keys = append(status.Keys, KeyStatus{key.ID, s.configurations[i].KEM, key.Count, key.Retired})
	}
	s.lock.Lock()
	defer s.lock.Unlock()
	status.Tally = s.tally
	status.Refused = map[int]uint64{}
	for number, count := range s.tally.Refused {
		status.Refused[number] = count
	}
	return status
}

// String is the status page as text.
func (s Status) String() string {
	var page strings.Builder
	fmt.Fprintf(&page, "last ticket %d, %d pending\n", s.LastTicket, s.Pending)
	for _, key := range s.Keys {
		fmt.Fprintf(&page, "key %d, KEM 0x%04x: %d of %d uses", key.ID, uint16(key.KEM), key.Count, s.Cap)
		if key.Retired {
			page.WriteString(", retired")
		}
		page.WriteString("\n")
	}
	fmt.Fprintf(&page, "answered %d, not opened %d, abandoned %d\n", s.Answered, s.NotOpened, s.Abandoned)
	var numbers []int
	for number := range s.Refused {
		numbers = append(numbers, number)
	}
	sort.Ints(numbers)
	for _, number := range numbers {
		fmt.Fprintf(&page, "refused with %d, %s: %d\n", number, sealwax.Sentence(number), s.Refused[number])
	}
	return page.String()
}

func (s *Service) status(w http.ResponseWriter, r *http.Request) {
	if r.Method != http.MethodGet && r.Method != http.MethodHead {
		methodNotAllowed(w, "GET, HEAD")
		return
	}
	status := s.Status()
	w.Header().Set("Cache-Control", "no-store")
	if !strings.Contains(r.Header.Get("Accept"), "application/json") {
		reply{http.StatusOK, textType, []byte(status.String())}.send(w)
		return
	}
	content, err := json.Marshal(status)
	if err != nil {
		s.config.Log.Print(err)
		http.Error(w, "no status", http.StatusInternalServerError)
		return
	}
	reply{http.StatusOK, "application/json", content}.send(w)
}

// retire retires the key whose id the form's field key has. The library answers no HTTP status to a refused retirement, so these are
// the service's own.
func (s *Service) retire(w http.ResponseWriter, r *http.Request) {
	if r.Method != http.MethodPost {
		methodNotAllowed(w, "POST")
		return
	}
	r.Body = http.MaxBytesReader(w, r.Body, 1<<10)
	id, err := strconv.ParseUint(r.PostFormValue("key"), 10, 8)
	if err != nil {
		http.Error(w, "key is no key id", http.StatusBadRequest)
		return
	}
	err = s.gateway.Retire(sealwax.KeyID(id))
	switch {
	case err == nil:
		s.config.Log.Printf("key %d retired", id)
		reply{http.StatusOK, textType, []byte(fmt.Sprintf("key %d retired\n", id))}.send(w)
	case sealwax.IsRefusal(err, sealwax.NoSuchKey):
		http.Error(w, err.Error(), http.StatusNotFound)
	default:
		http.Error(w, err.Error(), http.StatusConflict)
	}
}
