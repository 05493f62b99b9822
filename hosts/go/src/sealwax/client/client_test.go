package client

import (
	"bytes"
	"context"
	"errors"
	"fmt"
	"io"
	"log"
	"net/http"
	"net/http/httptest"
	"strings"
	"sync"
	"testing"

	"sealwax"
	"sealwax/gateway"
	"sealwax/ohttp"
)

func echo(_ context.Context, opened []byte) ([]byte, error) {
	return append([]byte("echo "), opened...), nil
}

// serve starts a service with two keys, 7 and 8, behind a handler that may look at what passes.
func serve(t *testing.T, around func(http.Handler) http.Handler) (*gateway.Service, *Client) {
	t.Helper()
	var keys []gateway.Key
	for _, id := range []sealwax.KeyID{7, 8} {
		private, err := ohttp.GenerateKey(0x0020)
		if err != nil {
			t.Fatal(err)
		}
		keys = append(keys, gateway.Key{ID: id, Private: private, Pairs: ohttp.Pairs})
	}
	service, err := gateway.New(gateway.Config{Keys: keys, Cap: 10, Target: echo, Log: log.New(io.Discard, "", 0)})
	if err != nil {
		t.Fatal(err)
	}
	server := httptest.NewServer(around(service))
	t.Cleanup(server.Close)
	return service, New(server.URL+gateway.Path, server.URL+gateway.Path)
}

// A counter counts the requests that pass, by method.
type counter struct {
	lock  sync.Mutex
	count map[string]int
}

func (c *counter) around(next http.Handler) http.Handler {
	c.count = map[string]int{}
	return http.HandlerFunc(func(w http.ResponseWriter, r *http.Request) {
		c.lock.Lock()
		c.count[r.Method]++
		c.lock.Unlock()
		next.ServeHTTP(w, r)
	})
}

func (c *counter) want(t *testing.T, gets, posts int) {
	t.Helper()
	c.lock.Lock()
	defer c.lock.Unlock()
	if c.count["GET"] != gets || c.count["POST"] != posts {
		t.Errorf("%v, want %d GET and %d POST", c.count, gets, posts)
	}
}

func retire(t *testing.T, service *gateway.Service, id int) {
	t.Helper()
	request := httptest.NewRequest(http.MethodPost, gateway.RetirePath, strings.NewReader(fmt.Sprintf("key=%d", id)))
	request.Header.Set("Content-Type", "application/x-www-form-urlencoded")
	recorder := httptest.NewRecorder()
	service.ServeHTTP(recorder, request)
	if recorder.Code != http.StatusOK {
		t.Fatal(recorder.Code, recorder.Body)
	}
}

func send(t *testing.T, c *Client) *Exchange {
	t.Helper()
	exchange, err := c.Send(context.Background(), []byte("a reading"))
	if err != nil {
		t.Fatal(err)
	}
	if string(exchange.Answer) != "echo a reading" || exchange.Status != 200 || exchange.Request != 7+32+9+16 {
		t.Errorf("%+v", exchange)
	}
	return exchange
}

// The list is fetched once, again when a key is refused, and the reading is then sealed to another key.
func TestKeyProblem(t *testing.T) {
	var count counter
	service, c := serve(t, count.around)
	for i := 0; i < 2; i++ {
		if exchange := send(t, c); exchange.Choice.KeyID != 7 || exchange.Again {
			t.Errorf("%+v", exchange)
		}
	}
	count.want(t, 1, 2)
	retire(t, service, 7)
	if exchange := send(t, c); exchange.Choice.KeyID != 8 || !exchange.Again {
		t.Errorf("%+v", exchange)
	}
	count.want(t, 2, 4)
	if exchange := send(t, c); exchange.Choice.KeyID != 8 || exchange.Again {
		t.Errorf("%+v", exchange)
	}
	count.want(t, 2, 5)
	// No key is left: the problem is reported, with what came of the second fetch.
	retire(t, service, 8)
	_, err := c.Send(context.Background(), nil)
	var problem *Unprotected
	if !errors.As(err, &problem) || problem.Status != 400 || problem.Type != sealwax.OHTTPKey || problem.Text != "key retired" ||
		!strings.Contains(err.Error(), "503") {
		t.Errorf("%v", err)
	}
	count.want(t, 3, 6)
}

// A key wears out: the client goes on with the next one, then reports.
func TestKeyWearsOut(t *testing.T) {
	_, c := serve(t, func(h http.Handler) http.Handler { return h })
	for i := 0; i < 20; i++ {
		if exchange := send(t, c); exchange.Again != (i == 10) {
			t.Errorf("%d: %+v", i, exchange)
		}
	}
	var problem *Unprotected
	if _, err := c.Send(context.Background(), nil); !errors.As(err, &problem) || problem.Text != "key used up" {
		t.Errorf("%v", err)
	}
}

// A gateway that always says that the key is wrong is asked twice and no more.
func TestOnceAgain(t *testing.T) {
	var count counter
	tries := 0
	_, c := serve(t, func(next http.Handler) http.Handler {
		return count.around(http.HandlerFunc(func(w http.ResponseWriter, r *http.Request) {
			if r.Method == http.MethodPost {
				if tries++; tries > 5 { // a client that does not stop is stopped
					w.WriteHeader(500)
					return
				}
				w.Header().Set("Content-Type", ohttp.ProblemType)
				w.WriteHeader(400)
				fmt.Fprintf(w, `{"type":%q, "title":"no"}`, sealwax.OHTTPKey)
				return
			}
			next.ServeHTTP(w, r)
		}))
	})
	var problem *Unprotected
	if _, err := c.Send(context.Background(), nil); !errors.As(err, &problem) || problem.Type != sealwax.OHTTPKey || problem.Text != "no" {
		t.Errorf("%v", err)
	}
	count.want(t, 2, 2)
}

// What else goes wrong is reported and not tried again.
func TestReported(t *testing.T) {
	elsewhere := httptest.NewServer(http.HandlerFunc(func(http.ResponseWriter, *http.Request) { t.Error("a redirect was followed") }))
	defer elsewhere.Close()
	for name, c := range map[string]struct {
		post  http.HandlerFunc
		check func(error) bool
	}{
		"422": {
			func(w http.ResponseWriter, r *http.Request) { http.Error(w, "no", 422) },
			func(err error) bool {
				var unprotected *Unprotected
				return errors.As(err, &unprotected) && *unprotected == Unprotected{Status: 422, Text: "no"}
			},
		},
		"other problem": {
			func(w http.ResponseWriter, r *http.Request) {
				w.Header().Set("Content-Type", ohttp.ProblemType)
				w.WriteHeader(400)
				fmt.Fprint(w, `{"type":"about:blank", "title":"no"}`)
			},
			func(err error) bool {
				var unprotected *Unprotected
				return errors.As(err, &unprotected) && *unprotected == Unprotected{Status: 400, Type: "about:blank", Text: "no"}
			},
		},
		"not a sealed response": {
			func(w http.ResponseWriter, r *http.Request) { fmt.Fprint(w, "hello") },
			func(err error) bool { var u *Unprotected; return errors.As(err, &u) && u.Status == 200 },
		},
		"redirect": {
			func(w http.ResponseWriter, r *http.Request) { http.Redirect(w, r, elsewhere.URL, 307) },
			func(err error) bool { var u *Unprotected; return errors.As(err, &u) && u.Status == 307 },
		},
		"junk":  {sealed(100), func(err error) bool { return err != nil }},
		"short": {sealed(31), func(err error) bool { return sealwax.IsRefusal(err, sealwax.TooShort) }},
		"long":  {sealed(1 << 20), func(err error) bool { return sealwax.IsRefusal(err, sealwax.TooLong) }},
	} {
		t.Run(name, func(t *testing.T) {
			var count counter
			_, sender := serve(t, func(next http.Handler) http.Handler {
				return count.around(http.HandlerFunc(func(w http.ResponseWriter, r *http.Request) {
					if r.Method == http.MethodPost {
						c.post(w, r)
						return
					}
					next.ServeHTTP(w, r)
				}))
			})
			if exchange, err := sender.Send(context.Background(), nil); exchange != nil || !c.check(err) {
				t.Errorf("%+v, %v", exchange, err)
			}
			count.want(t, 1, 1)
		})
	}
}

// sealed answers this many bytes as a sealed response.
func sealed(length int) http.HandlerFunc {
	return func(w http.ResponseWriter, r *http.Request) {
		w.Header().Set("Content-Type", ohttp.ResponseType)
		_, _ = w.Write(make([]byte, length))
	}
}

// around changes the key list that a handler serves.
func around(change func([]byte) []byte) func(http.Handler) http.Handler {
	return func(next http.Handler) http.Handler {
		return http.HandlerFunc(func(w http.ResponseWriter, r *http.Request) {
			if r.Method == http.MethodPost {
				next.ServeHTTP(w, r)
				return
			}
			recorder := httptest.NewRecorder()
			next.ServeHTTP(recorder, r)
			w.Header().Set("Content-Type", recorder.Header().Get("Content-Type"))
			_, _ = w.Write(change(recorder.Body.Bytes()))
		})
	}
}

// A list with a fault is discarded whole, however much of it is good, and nothing is sent.
func TestBadList(t *testing.T) {
	for name, bad := range map[string]struct {
		number int
		damage func([]byte) []byte
	}{
		"empty":   {sealwax.ListTruncated, func([]byte) []byte { return nil }},
		"cut":     {sealwax.ListTruncated, func(list []byte) []byte { return list[:len(list)-1] }},
		"doubled": {sealwax.DuplicateKeyID, func(list []byte) []byte { return append(list, list...) }},
		"short":   {sealwax.LengthMismatch, func(list []byte) []byte { return append(list, 0, 2, 9, 0) }},
		"too long": {sealwax.TooManyConfigurations, func(list []byte) []byte {
			for len(list) <= sealwax.LongestListRead {
				list = append(list, unknown(65535-3)...)
			}
			return list
		}},
	} {
		t.Run(name, func(t *testing.T) {
			var count counter
			_, c := serve(t, func(next http.Handler) http.Handler { return count.around(around(bad.damage)(next)) })
			if _, err := c.Send(context.Background(), nil); !sealwax.IsRefusal(err, bad.number) {
				t.Errorf("%v", err)
			}
			count.want(t, 1, 0)
		})
	}
}

// unknown is a configuration with a KEM that is unknown here, of the key id of another one and with so many bytes behind its KEM.
func unknown(length int) []byte {
	return append([]byte{byte((3 + length) >> 8), byte(3 + length), 7, 0x00, 0x30}, make([]byte, length)...)
}

// A configuration with an unknown KEM is skipped and logged, wherever it stands and however long it is; the reading goes through.
func TestSkipped(t *testing.T) {
	for name, gain := range map[string]func([]byte) []byte{
		"in front": func(list []byte) []byte { return append(unknown(0), list...) },
		"behind":   func(list []byte) []byte { return append(list, unknown(1216+2+4)...) },
		"long":     func(list []byte) []byte { return append(unknown(65535-3), list...) },
	} {
		t.Run(name, func(t *testing.T) {
			var lines bytes.Buffer
			_, c := serve(t, around(gain))
			c.Log = log.New(&lines, "", 0)
			for i := 0; i < 2; i++ {
				if exchange := send(t, c); exchange.Choice.KeyID != 7 || exchange.Again {
					t.Errorf("%+v", exchange)
				}
			}
			// The list was fetched once.
			if lines.String() != "key list: 1 of 3 configurations skipped, with a KEM that is unknown here\n" {
				t.Errorf("%q", lines.String())
			}
			c.Log = nil
			c.list = nil
			send(t, c)
		})
	}
}

// Where all are skipped, no configuration can be used; the log says why. The list is not kept: when the maker mends it, readings go through.
func TestAllSkipped(t *testing.T) {
	var lines bytes.Buffer
	var count counter
	mended := false
	_, c := serve(t, func(next http.Handler) http.Handler {
		return count.around(around(func(list []byte) []byte {
			if mended {
				return list
			}
			return append(unknown(0), unknown(40)...)
		})(next))
	})
	c.Log = log.New(&lines, "", 0)
	if _, err := c.Send(context.Background(), nil); !sealwax.IsRefusal(err, sealwax.NoUsableConfiguration) {
		t.Errorf("%v", err)
	}
	if lines.String() != "key list: 2 of 2 configurations skipped, with a KEM that is unknown here\n" {
		t.Errorf("%q", lines.String())
	}
	count.want(t, 1, 0)
	mended = true
	send(t, c)
	send(t, c)
	count.want(t, 2, 2)
}

// The longest list that may be good is read whole; of one that does not end, no more is read than shows that it is bad.
func TestLongestList(t *testing.T) {
	longest := func(list []byte) []byte {
		for i := 2; i < sealwax.MostKeys; i++ {
			list = append(list, unknown(65535-3)...)
		}
		return list
	}
	var lines bytes.Buffer
	_, c := serve(t, around(longest))
	c.Log = log.New(&lines, "", 0)
	send(t, c)
	if lines.String() != "key list: 14 of 16 configurations skipped, with a KEM that is unknown here\n" {
		t.Errorf("%q", lines.String())
	}

	const most = 1 << 10 // 64 MiB
	ended := make(chan int, 1)
	endless := httptest.NewServer(http.HandlerFunc(func(w http.ResponseWriter, r *http.Request) {
		w.Header().Set("Content-Type", ohttp.KeysType)
		written := 0
		for written < most {
			if _, err := w.Write(unknown(65535 - 3)); err != nil {
				break
			}
			written++
		}
		ended <- written
	}))
	defer endless.Close()
	c = New(endless.URL, endless.URL)
	if _, err := c.Send(context.Background(), nil); !sealwax.IsRefusal(err, sealwax.TooManyConfigurations) {
		t.Errorf("%v", err)
	}
	if written := <-ended; written == most {
		t.Error("all of it was read")
	}
}

func TestNothingUsable(t *testing.T) {
	_, c := serve(t, func(h http.Handler) http.Handler { return h })
	c.KEMs = []sealwax.KEM{0x0021}
	if _, err := c.Send(context.Background(), nil); !sealwax.IsRefusal(err, sealwax.NoUsableConfiguration) {
		t.Errorf("%v", err)
	}
}
