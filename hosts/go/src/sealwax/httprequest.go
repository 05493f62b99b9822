package sealwax

import (
	"bytes"
	"net/http"
	"net/url"
	"strconv"
	"strings"
)

// An Unfit error says why net/http has no form for a request inside that is good, and nothing of what stands in it.
type Unfit string

func (u Unfit) Error() string { return "no http.Request: " + string(u) }

// ReadHTTPRequest reads a request inside as an http.Request. A bad message is refused with BadMessage and the place of its first fault;
// one that net/http cannot hold, or would send otherwise than it stands there, gets an Unfit error.
func ReadHTTPRequest(message []byte) (*http.Request, error) {
	inner, err := ReadInnerRequest(message)
	if err != nil {
		return nil, err
	}
	return inner.HTTPRequest()
}

// HTTPRequest makes an http.Request of a request inside, for a handler or a client. Its body is the content, not a copy. The host is the
// authority, or where that is empty the host field; the header has none. RequestURI is empty, as net/http wants it of what a client sends; a
// client sends trailers only where ContentLength is then set to -1.
func (r *InnerRequest) HTTPRequest() (*http.Request, error) {
	header, err := httpHeader(r.Headers)
	if err != nil {
		return nil, err
	}
	trailer, err := httpHeader(r.Trailers)
	if err != nil {
		return nil, err
	}
	if err := r.framed(header, trailer); err != nil {
		return nil, err
	}
	host, err := r.host(header)
	if err != nil {
		return nil, err
	}
	target, err := r.url(host)
	if err != nil {
		return nil, err
	}
	request, err := http.NewRequest(string(r.Method), "/", bytes.NewReader(r.Content))
	if err != nil || len(r.Method) == 0 { // net/http takes none for GET
		return nil, Unfit("the method is no token")
	}
	header.Del("Host")
	request.URL, request.Host, request.Header = target, host, header
	if len(trailer) > 0 {
		request.Trailer = trailer
	}
	return request, nil
}

// httpHeader makes a header of fields. Of the controls, the library's profile forbids only NUL, CR and LF.
func httpHeader(fields []Field) (http.Header, error) {
	header := http.Header{}
	for _, field := range fields {
		for _, c := range field.Value {
			if c < ' ' && c != '\t' || c == 0x7f {
				return nil, Unfit("a control character in a value")
			}
		}
		header.Add(string(field.Name), string(field.Value))
	}
	return header, nil
}

// framed checks that no field says otherwise than the message where its content ends, and that no trailer is one that net/http forbids.
func (r *InnerRequest) framed(header, trailer http.Header) error {
	for _, length := range header["Content-Length"] {
		if length != strconv.Itoa(len(r.Content)) {
			return Unfit("a content-length that is not the content's")
		}
	}
	if header["Transfer-Encoding"] != nil {
		return Unfit("a transfer-encoding")
	}
	for _, name := range []string{"Content-Length", "Transfer-Encoding", "Trailer"} {
		if trailer[name] != nil {
			return Unfit("a trailer that only a header can have")
		}
	}
	return nil
}

// host is the authority, or where that is empty the host field. Where there are both they say the same.
func (r *InnerRequest) host(header http.Header) (string, error) {
	authority, named := string(r.Authority), header["Host"]
	switch {
	case len(named) > 1:
		return "", Unfit("more than one host field")
	case len(named) == 0:
		return authority, nil
	case authority == "":
		return named[0], nil
	case !strings.EqualFold(authority, named[0]):
		return "", Unfit("a host field that is not the authority")
	}
	return authority, nil
}

// url is the URL of scheme, host and path; for CONNECT that of the host alone.
func (r *InnerRequest) url(host string) (*url.URL, error) {
	if string(r.Method) != http.MethodConnect {
		target, err := r.path()
		if err != nil {
			return nil, err
		}
		return target, setHost(target, string(r.Scheme), host)
	}
	if len(r.Scheme) != 0 || len(r.Path) != 0 {
		return nil, Unfit("CONNECT with a scheme or a path")
	}
	target := &url.URL{}
	err := setHost(target, "http", host) // as net/http does, which leaves the scheme out afterwards
	target.Scheme = ""
	return target, err
}

// path is the URL of the path and its query, or of the * with which OPTIONS asks the host as a whole. It takes none that net/http would send
// with other escapes, nor blanks and the like in a query, which net/http would send as they are.
func (r *InnerRequest) path() (*url.URL, error) {
	path := string(r.Path)
	outside := func(c rune) bool { return c <= ' ' || c > '~' || c == '#' }
	asterisk := path == "*" && string(r.Method) == http.MethodOptions
	if !asterisk && !strings.HasPrefix(path, "/") || strings.IndexFunc(path, outside) >= 0 {
		return nil, Unfit("the path is none of a URL")
	}
	target, err := url.ParseRequestURI(path)
	if err != nil || target.RequestURI() != path {
		return nil, Unfit("the path is none of a URL")
	}
	return target, nil
}

// The bytes of hosts: those of RFC 3986 without the escapes.
const hostBytes = "abcdefghijklmnopqrstuvwxyzABCDEFGHIJKLMNOPQRSTUVWXYZ0123456789-._~!$&'()*+,;=:[]"

// setHost puts scheme and host into a URL.
func setHost(target *url.URL, scheme, host string) error {
	base, err := url.Parse(scheme + "://" + host)
	switch {
	case host == "":
		return Unfit("neither an authority nor a host field")
	case strings.Trim(host, hostBytes) != "": // net/url takes more
		return Unfit("the authority is none of a URL")
	case err != nil || base.Scheme != strings.ToLower(scheme) || base.Hostname() == "":
		return Unfit("scheme and authority are none of a URL")
	}
	target.Scheme, target.Host = base.Scheme, base.Host
	return nil
}
