// Sealwax-client sends one reading through an Oblivious HTTP gateway and prints what happened.
package main

import (
	"context"
	"flag"
	"fmt"
	"io"
	"log"
	"net/http"

	"sealwax/client"
)

func main() {
	gateway := flag.String("gateway", "", "URL of the gateway resource, where the key list is fetched")
	relay := flag.String("relay", "", "URL that takes requests, the gateway resource's where there is no relay")
	reading := flag.String("reading", "monitor 12: 60.2 pulses a minute, ratio 64:36, vacuum 42.1 kPa", "what to send")
	status := flag.String("status", "", "URL of a status page to print afterwards, on the gateway's machine")
	flag.Parse()
	if *relay == "" {
		*relay = *gateway
	}
	log.SetFlags(0)
	if err := send(*gateway, *relay, *reading); err != nil {
		log.Fatal(err)
	}
	if *status == "" {
		return
	}
	if err := show(*status); err != nil {
		log.Fatal(err)
	}
}

func send(gateway, relay, reading string) error {
	exchange, err := client.New(gateway, relay).Send(context.Background(), []byte(reading))
	if err != nil {
		return err
	}
	choice := exchange.Choice
	if exchange.Again {
		fmt.Println("list:   fetched again, the first key was refused")
	}
	fmt.Printf("key:    %d, KEM 0x%04x, KDF 0x%04x, AEAD 0x%04x\n",
		choice.KeyID, uint16(choice.KEM), uint16(choice.Pair.KDF), uint16(choice.Pair.AEAD))
	fmt.Printf("sent:   %d bytes, the sealed reading %q\n", exchange.Request, reading)
	fmt.Printf("status: %d, with a sealed response of %d bytes\n", exchange.Status, exchange.Response)
	fmt.Printf("answer: %q\n", exchange.Answer)
	return nil
}

func show(url string) error {
	response, err := http.Get(url)
	if err != nil {
		return err
	}
	defer response.Body.Close()
	page, err := io.ReadAll(response.Body)
	if err != nil {
		return err
	}
	fmt.Printf("the gateway's status page:\n%s", page)
	return nil
}
