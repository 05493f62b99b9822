package sealwax

/*
#include "sealwax.h"
*/
import "C"

// A Field is a field of a header or trailer section.
type Field struct {
	Name, Value []byte
}

// An InnerRequest is the request inside: what an opened request holds, in binary HTTP of known length (RFC 9292). All of it are parts of
// the message, not copies. Names and values are as the library's profile has them; method, scheme, authority, path and content may be any
// bytes, and a part that is missing at the message's end is empty.
type InnerRequest struct {
	Method, Scheme, Authority, Path []byte
	Headers                         []Field
	Content                         []byte
	Trailers                        []Field
	Padding                         int // zero bytes behind the trailers
}

// ReadInnerRequest reads a request inside. A bad one is refused with BadMessage and the place of its first fault.
func ReadInnerRequest(message []byte) (*InnerRequest, error) {
	result := C.sealwax_request((*C.uint8_t)(first(message)), C.size_t(len(message)))
	if err := refused(result.outcome); err != nil {
		return nil, err
	}
	headers, err := fields(message, result.headers)
	if err != nil {
		return nil, err
	}
	trailers, err := fields(message, result.trailers)
	if err != nil {
		return nil, err
	}
	return &InnerRequest{
		Method:    part(message, result.method),
		Scheme:    part(message, result.scheme),
		Authority: part(message, result.authority),
		Path:      part(message, result.path),
		Headers:   headers,
		Content:   part(message, result.content),
		Trailers:  trailers,
		Padding:   int(result.padding.end - result.padding.start),
	}, nil
}

// part is a part of a message. Nothing can be appended to it in the message's own memory.
func part(message []byte, span C.sealwax_span) []byte {
	return message[span.start:span.end:span.end]
}

// fields walks a section of a message that was accepted, in which nothing is refused any more.
func fields(message []byte, section C.sealwax_section) ([]Field, error) {
	list := make([]Field, 0, section.fields)
	for place := section.span.start; place != section.span.end; {
		result := C.sealwax_next_field((*C.uint8_t)(first(message)), section.span.end, place)
		if err := refused(result.outcome); err != nil {
			return nil, err
		}
		list = append(list, Field{part(message, result.name), part(message, result.value)})
		place = result.next
	}
	return list, nil
}
