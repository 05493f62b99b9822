// Package client sends readings through an Oblivious HTTP gateway (RFC 9458). Package sealwax chooses the key and lays out the bytes,
// package ohttp does the cryptography.
package client

import (
	"bytes"
	"context"
	"encoding/json"
	"errors"
	"fmt"
	"io"
	"log"
	"mime"
	"net/http"
	"sync"
	"time"

	"sealwax"
	"sealwax/ohttp"
)

// A Client sends to one gateway. It may be used at the same time by many.
type Client struct {
	// Keys is where the key list is, and Relay where requests go: the relay's resource, or for trials the gateway's own. The list says
	// to whom readings are sealed, so it must come over a connection that protects it.
	Keys, Relay string
	// HTTP is used for both; it follows no redirects, since a sealed request is for the relay alone.
	HTTP *http.Client
	// KEMs and Pairs are what the client is willing to use.
	KEMs  []sealwax.KEM
	Pairs []sealwax.Pair
	// Log gets a line where a list that was fetched has configurations with unknown KEMs, which are skipped; nil for none.
	Log *log.Logger

	lock sync.Mutex
	list []byte
}

// New makes a client that fetches the keys at one URL, sends requests to another, and uses all that package ohttp can do.
func New(keys, relay string) *Client {
	return &Client{
		Keys:  keys,
		Relay: relay,
		HTTP: &http.Client{
			Timeout:       60 * time.Second,
			CheckRedirect: func(*http.Request, []*http.Request) error { return http.ErrUseLastResponse },
		},
		KEMs:  ohttp.KEMs,
		Pairs: ohttp.Pairs,
		Log:   log.Default(),
	}
}

// An Exchange is a reading that was answered.
type Exchange struct {
	Choice   sealwax.Choice
	Request  int // bytes sent
	Status   int
	Response int // bytes received
	Answer   []byte
	Again    bool // whether the first try met a key problem
}

// An Unprotected error is an answer that no sealed response is in. It was not protected, so anybody on the way may have made it.
type Unprotected struct {
	Status int
	Type   string // the problem type, if any
	Text   string // the problem's title, or the content
}

func (u *Unprotected) Error() string {
	return fmt.Sprintf("unprotected answer %d: %q", u.Status, u.Text)
}

// Send seals a reading, sends it and opens the answer. Where the gateway says that the key is wrong or outdated, the list is fetched
// again, once, and the reading is sealed anew (RFC 9458, 5.3): such a request was not taken up, so nothing is done twice.
func (c *Client) Send(ctx context.Context, reading []byte) (*Exchange, error) {
	list, err := c.keyList(ctx, nil)
	if err != nil {
		return nil, err
	}
	exchange, err := c.try(ctx, list, reading)
	var unprotected *Unprotected
	if !errors.As(err, &unprotected) || unprotected.Type != sealwax.OHTTPKey {
		return exchange, err
	}
	problem := err
	if list, err = c.keyList(ctx, list); err != nil {
		return nil, fmt.Errorf("%w; and then: %v", problem, err)
	}
	exchange, err = c.try(ctx, list, reading)
	if err != nil {
		return nil, err
	}
	exchange.Again = true
	return exchange, nil
}

// keyList hands back the list that the client holds, or fetches one where that is outdated or none.
func (c *Client) keyList(ctx context.Context, outdated []byte) ([]byte, error) {
	c.lock.Lock()
	defer c.lock.Unlock()
	if c.list != nil && !bytes.Equal(c.list, outdated) {
		return c.list, nil
	}
	request, err := http.NewRequestWithContext(ctx, http.MethodGet, c.Keys, nil)
	if err != nil {
		return nil, err
	}
	request.Header.Set("Accept", ohttp.KeysType)
	response, content, err := c.do(request, sealwax.LongestListRead)
	if err != nil {
		return nil, err
	}
	if response.StatusCode != http.StatusOK || mediaType(response) != ohttp.KeysType {
		return nil, fmt.Errorf("no key list: %s", response.Status)
	}
	configurations, skipped, err := sealwax.Check(content)
	if err != nil {
		return nil, err
	}
	if skipped > 0 && c.Log != nil {
		c.Log.Printf("key list: %d of %d configurations skipped, with a KEM that is unknown here", skipped, configurations+skipped)
	}
	c.list = content
	return content, nil
}

// forget drops a list that has nothing which the client can use, so that the next reading fetches one that may have.
func (c *Client) forget(list []byte) {
	c.lock.Lock()
	defer c.lock.Unlock()
	if bytes.Equal(c.list, list) {
		c.list = nil
	}
}

func (c *Client) try(ctx context.Context, list, reading []byte) (*Exchange, error) {
	choice, err := sealwax.Choose(list, c.KEMs, c.Pairs)
	if err != nil {
		c.forget(list)
		return nil, err
	}
	sealed, sent, err := ohttp.Seal(choice, reading)
	if err != nil {
		return nil, err
	}
	request, err := http.NewRequestWithContext(ctx, http.MethodPost, c.Relay, bytes.NewReader(sealed))
	if err != nil {
		return nil, err
	}
	request.Header.Set("Content-Type", ohttp.RequestType)
	response, content, err := c.do(request, sealwax.LongestResponse)
	if err != nil {
		return nil, err
	}
	if response.StatusCode != http.StatusOK || mediaType(response) != ohttp.ResponseType {
		return nil, unprotected(response, content)
	}
	answer, err := sent.Open(content)
	if err != nil {
		return nil, err
	}
	return &Exchange{
		Choice: choice, Request: len(sealed), Status: response.StatusCode, Response: len(content), Answer: answer,
	}, nil
}

// do sends a request and reads the answer, a byte more at most than it may have: what is longer, the library refuses.
func (c *Client) do(request *http.Request, longest int64) (*http.Response, []byte, error) {
	response, err := c.HTTP.Do(request)
	if err != nil {
		return nil, nil, err
	}
	defer response.Body.Close()
	content, err := io.ReadAll(io.LimitReader(response.Body, longest+1))
	return response, content, err
}

func mediaType(response *http.Response) string {
	media, _, err := mime.ParseMediaType(response.Header.Get("Content-Type"))
	if err != nil {
		return ""
	}
	return media
}

func unprotected(response *http.Response, content []byte) *Unprotected {
	answer := &Unprotected{Status: response.StatusCode, Text: string(bytes.TrimSpace(content))}
	if mediaType(response) != ohttp.ProblemType {
		return answer
	}
	var problem struct{ Type, Title string }
	if err := json.Unmarshal(content, &problem); err == nil {
		answer.Type, answer.Text = problem.Type, problem.Title
	}
	return answer
}
