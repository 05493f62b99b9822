// Sealwax-gateway is an Oblivious HTTP gateway on loopback, with a demonstration target. It makes fresh private keys at every start and
// keeps none: use counts do not outlive it, so neither may a key.
package main

import (
	"context"
	"crypto/rand"
	"flag"
	"fmt"
	"log"
	"net"
	"net/http"
	"os"
	"os/signal"
	"strconv"
	"strings"
	"syscall"
	"time"

	"sealwax"
	"sealwax/gateway"
	"sealwax/ohttp"
)

func main() {
	address := flag.String("address", "127.0.0.1:0", "loopback address to listen on; port 0 takes a free one")
	keyCap := flag.Uint64("cap", 1000, "uses allowed per key")
	kems := flag.String("kems", "0020,0010", "a key is made for each of these KEMs, four hex digits each")
	flag.Parse()
	log.SetFlags(log.LstdFlags | log.LUTC)
	if err := run(*address, *keyCap, strings.Split(*kems, ",")); err != nil {
		log.Fatal(err)
	}
}

func run(address string, keyCap uint64, kems []string) error {
	keys, err := freshKeys(kems)
	if err != nil {
		return err
	}
	service, err := gateway.New(gateway.Config{Keys: keys, Cap: keyCap, Target: taken})
	if err != nil {
		return err
	}
	listener, err := net.Listen("tcp", address)
	if err != nil {
		return err
	}
	// The operator's resources have no lock but the loopback address.
	if !listener.Addr().(*net.TCPAddr).IP.IsLoopback() {
		listener.Close()
		return fmt.Errorf("%s is no loopback address", address)
	}
	fmt.Printf("http://%s\n", listener.Addr())
	return serve(service.Server(), listener)
}

// serve serves until the program is told to stop. Pending exchanges then have ten seconds to be answered.
func serve(server *http.Server, listener net.Listener) error {
	stop, cancel := signal.NotifyContext(context.Background(), os.Interrupt, syscall.SIGTERM)
	defer cancel()
	ended := make(chan error, 1)
	go func() { ended <- server.Serve(listener) }()
	select {
	case err := <-ended:
		return err
	case <-stop.Done():
	}
	last, cancel := context.WithTimeout(context.Background(), 10*time.Second)
	defer cancel()
	if err := server.Shutdown(last); err != nil {
		return err
	}
	if err := <-ended; err != http.ErrServerClosed {
		return err
	}
	return nil
}

// freshKeys makes a key for each KEM, offered with every pair. Key ids begin anywhere, so that a client with a list of an earlier start
// mostly learns that its key id is unknown, and fetches the new list.
func freshKeys(kems []string) ([]gateway.Key, error) {
	var begin [1]byte
	if _, err := rand.Read(begin[:]); err != nil {
		return nil, err
	}
	var keys []gateway.Key
	for i, digits := range kems {
		number, err := strconv.ParseUint(digits, 16, 16)
		if err != nil {
			return nil, err
		}
		private, err := ohttp.GenerateKey(sealwax.KEM(number))
		if err != nil {
			return nil, err
		}
		keys = append(keys, gateway.Key{ID: sealwax.KeyID(begin[0] + byte(i)), Private: private, Pairs: ohttp.Pairs})
	}
	return keys, nil
}

// taken is the demonstration target: it takes the opened bytes for a reading, not for binary HTTP, and says how many it took.
func taken(_ context.Context, reading []byte) ([]byte, error) {
	return []byte(fmt.Sprintf("taken: a reading of %d bytes", len(reading))), nil
}
