package sealwax

import (
	"bytes"
	"fmt"
	"strings"
	"testing"
)

// counted puts each part behind its length, of one byte.
func counted(parts ...string) string {
	var text strings.Builder
	for _, part := range parts {
		text.WriteByte(byte(len(part)))
		text.WriteString(part)
	}
	return text.String()
}

// upToPath is a message that ends behind its path, after 23 bytes.
var upToPath = "\x00" + counted("GET", "https", "a.example", "/")

const (
	huge    = "\xff\xff\xff\xff\xff\xff\xff\xff" // the largest integer, 2^62 - 1
	pathEnd = 23                                 // where upToPath ends
)

// shown is a request in a line.
func shown(r *InnerRequest) string {
	line := fmt.Sprintf("%q %q %q %q", r.Method, r.Scheme, r.Authority, r.Path)
	for _, section := range [][]Field{r.Headers, r.Trailers} {
		line += " ["
		for _, field := range section {
			line += fmt.Sprintf("%s:%s;", field.Name, field.Value)
		}
		line += "]"
	}
	return line + fmt.Sprintf(" %q %d", r.Content, r.Padding)
}

func TestReadInnerRequest(t *testing.T) {
	const front = `"GET" "https" "a.example" "/" `
	fields := counted("b", "2", "a", "", "b", "1 \t1", "c", "\x01\x7f\xff")
	for name, good := range map[string]struct{ message, want string }{
		"RFC 9458, Appendix A": {string(unhex(t, "00034745540568747470730b6578616d706c652e636f6d012f")),
			`"GET" "https" "example.com" "/" [] [] "" 0`},
		"ends behind path":    {upToPath, front + `[] [] "" 0`},
		"ends behind headers": {upToPath + counted(fields), front + "[b:2;a:;b:1 \t1;c:\x01\x7f\xff;]" + ` [] "" 0`},
		"ends behind content": {upToPath + counted("", "abc"), front + `[] [] "abc" 0`},
		"whole":               {upToPath + counted(counted("x", "y"), "abc", fields), front + "[x:y;] [b:2;a:;b:1 \t1;c:\x01\x7f\xff;]" + ` "abc" 0`},
		"padded":              {upToPath + counted("", "", "") + "\x00\x00\x00", front + `[] [] "" 3`},
		"all empty":           {strings.Repeat("\x00", 8), `"" "" "" "" [] [] "" 0`},
		"any bytes":           {"\x00" + counted("\x00", "\xff", " \r\n", "\n"), `"\x00" "\xff" " \r\n" "\n" [] [] "" 0`},
		"long integers": {"\xc0\x00\x00\x00\x00\x00\x00\x00" + "\x40\x03GET" + "\x80\x00\x00\x05https" + upToPath[11:] +
			"\x40\x04\x40\x01a\x00" + "\xc0\x00\x00\x00\x00\x00\x00\x01z", front + `[a:;] [] "z" 0`},
	} {
		request, err := ReadInnerRequest([]byte(good.message))
		if err != nil {
			t.Errorf("%s: %v", name, err)
		} else if line := shown(request); line != good.want {
			t.Errorf("%s: %s, want %s", name, line, good.want)
		}
	}
}

// Bytes are missing: the place is the message's length. Every start of a message that stops before its path does is such a one.
func TestMissingBytes(t *testing.T) {
	missing := []string{
		"\x00\x03GE",
		"\x40",                                // the framing is cut, whatever it would be
		upToPath + "\x80\x00\x00",             // so is a section's length
		upToPath + "\x05" + counted("a", "b"), // a section is longer than what follows
		upToPath + "\x05" + counted("A", "b"), // before its fields are read
		upToPath + "\x00\x05abc",              // content
		upToPath + "\x00\x00\x01",             // trailers
		upToPath + huge,
		upToPath + "\x00" + huge,
		upToPath + "\x00\x00" + huge,
		"\x00" + huge,
		"\x00\xc0\x00\x00\x01\x00\x00\x00\x00" + strings.Repeat("x", 100), // 2^32
	}
	for end := 0; end < len(upToPath); end++ {
		missing = append(missing, upToPath[:end])
	}
	for _, message := range missing {
		_, err := ReadInnerRequest([]byte(message))
		wants(t, err, Refusal{Number: BadMessage, HasPlace: true, Place: len(message)})
	}
	_, err := ReadInnerRequest(nil)
	wants(t, err, Refusal{Number: BadMessage, HasPlace: true})
	if err.Error() != "refusal 23 at 0: message inside bad" {
		t.Error(err)
	}
}

// badMessages are messages, and where their first fault is.
var badMessages = []struct {
	message string
	place   int
}{
	{"\x01" + upToPath[1:], 0}, // a response
	{"\x40\x02" + upToPath[1:], 0},
	{huge, 0},
	{upToPath + counted("\x00\x01b"), pathEnd + 1}, // a name that is empty
	{upToPath + counted(counted("a", "b")+"\x00\x00"), pathEnd + 5},      // the second one
	{upToPath + counted("\x05a") + counted("content"), pathEnd + 1},      // a name past its section's end
	{upToPath + counted(huge), pathEnd + 1},                              // far past it
	{upToPath + counted("\x40") + counted("content"), pathEnd + 1},       // its length
	{upToPath + counted("\x01a\x02b") + counted("content"), pathEnd + 3}, // a value
	{upToPath + counted("\x01a"+huge), pathEnd + 3},
	{upToPath + counted("\x01a") + counted("content"), pathEnd + 3}, // a value's length
	{upToPath + counted("\x01a"), pathEnd + 3},                      // where the message ends, too
	{upToPath + counted(counted("A", "b")), pathEnd + 2},            // a name with a capital letter
	{upToPath + counted("\x01A\x09b"), pathEnd + 2},                 // is judged before the value's length
	{upToPath + counted(counted("a b", "")), pathEnd + 3},           // with a blank
	{upToPath + counted(counted(":path", "")), pathEnd + 2},         // that is no token
	{upToPath + counted(counted("a\x80", "")), pathEnd + 3},
	{upToPath + counted(counted("a", "b\x00c")), pathEnd + 5},    // NUL
	{upToPath + counted(counted("a", "b\r\nc: d")), pathEnd + 5}, // CR
	{upToPath + counted(counted("a", "b\n")), pathEnd + 5},       // LF
	{upToPath + counted(counted("a", " b")), pathEnd + 4},        // a blank in front
	{upToPath + counted(counted("a", "\tb")), pathEnd + 4},
	{upToPath + counted(counted("a", " ")), pathEnd + 4},
	{upToPath + counted(counted("a", "b  ")), pathEnd + 6}, // blanks at the end
	{upToPath + counted(counted("a", "b \t")), pathEnd + 6},
	{upToPath + counted(counted("a", "b", "c", "d ")), pathEnd + 9},
	{upToPath + counted("", "abc", counted("A", "")), pathEnd + 7}, // in the trailers
	{upToPath + counted("", "", "\x02a") + "\x00\x00", pathEnd + 3},
	{upToPath + counted("", "", "") + "\x00\x00\x01\x02", pathEnd + 5}, // padding
	{upToPath + counted("", "", counted("a", "b")) + "\x17\x00", pathEnd + 7},
}

func TestBadMessages(t *testing.T) {
	for _, bad := range badMessages {
		_, err := ReadInnerRequest([]byte(bad.message))
		wants(t, err, Refusal{Number: BadMessage, HasPlace: true, Place: bad.place})
		if text := fmt.Sprintf("refusal 23 at %d: message inside bad", bad.place); err.Error() != text {
			t.Errorf("%q, want %q", err, text)
		}
	}
}

// What is handed back are parts of the message, to which nothing can be appended in its memory.
func TestPartsOfMessage(t *testing.T) {
	message := []byte(upToPath + counted(counted("a", "b"), "abc", counted("c", "d")) + "\x00")
	request, err := ReadInnerRequest(message)
	if err != nil {
		t.Fatal(err)
	}
	for at, part := range map[int][]byte{
		2: request.Method, 6: request.Scheme, 12: request.Authority, 22: request.Path, pathEnd + 6: request.Content,
		pathEnd + 2: request.Headers[0].Name, pathEnd + 4: request.Headers[0].Value,
		pathEnd + 11: request.Trailers[0].Name, pathEnd + 13: request.Trailers[0].Value,
	} {
		if &part[0] != &message[at] || cap(part) != len(part) {
			t.Errorf("%q is not the part at %d", part, at)
		}
	}
}

// Nearly as many fields as a message can have.
func TestManyFields(t *testing.T) {
	const most, sectionLength = 21800, 65400
	section := bytes.Repeat([]byte{1, 'a', 0}, most)
	message := append([]byte(upToPath), 0x80, 0, sectionLength>>8, sectionLength&0xff)
	request, err := ReadInnerRequest(append(message, section...))
	if err != nil || len(request.Headers) != most || cap(request.Headers) != most {
		t.Fatal(err)
	}
	for _, field := range request.Headers {
		if string(field.Name) != "a" || len(field.Value) != 0 {
			t.Fatalf("%q", field)
		}
	}
}

// The number has a sentence of its own, too.
func TestSentenceOfBadMessage(t *testing.T) {
	sentence := Sentence(BadMessage)
	for number := TooShort; number < BadMessage; number++ {
		if sentence == "" || sentence == Sentence(number) {
			t.Errorf("%d and %d are both %q", number, BadMessage, sentence)
		}
	}
}
