package paseto

// Every call of the library for C stands in this file.

/*
#cgo pkg-config: paseto
#include <paseto.h>

// Memory of Go that is lent to C may hold no pointers, so what has some is put together here.
typedef struct { const void *at; size_t length; } lent;
typedef struct { void *at; size_t length; size_t *written; } room;
typedef struct paseto_key key;

#define IN(it) (it).at, (it).length
#define OUT(it) (it).at, (it).length, (it).written

static paseto_status write_token(const key *by, lent text, lent footer, lent assertion, room token, room reason) {
    if (by->type == PASETO_KEY_LOCAL)
        return paseto_encrypt(by, IN(text), IN(footer), IN(assertion), OUT(token), OUT(reason));
    return paseto_sign(by, IN(text), IN(footer), IN(assertion), OUT(token), OUT(reason));
}

static paseto_status issue_token(const key *by, lent claims, int64_t now, lent footer, lent assertion, room token, room reason) {
    return paseto_issue(by, IN(claims), now, IN(footer), IN(assertion), OUT(token), OUT(reason));
}

static paseto_status read_token(const key *by, lent token, lent footer, lent assertion, room text, room reason) {
    if (by->type == PASETO_KEY_LOCAL)
        return paseto_decrypt(by, IN(token), IN(footer), IN(assertion), OUT(text), OUT(reason));
    return paseto_verify(by, IN(token), IN(footer), IN(assertion), OUT(text), OUT(reason));
}

static paseto_status admit_token(const key *by, lent token, lent expected, int64_t now, lent footer, lent assertion,
                                 uint32_t leeway, size_t longest, lent required, room claims, room reason) {
    struct paseto_options options = {sizeof options, leeway, longest, 0, required.at, required.length};
    return paseto_admit(by, IN(token), IN(expected), now, IN(footer), IN(assertion), &options, OUT(claims), OUT(reason));
}

static paseto_status footer_of(lent token, room footer, room reason) {
    return paseto_token_footer(IN(token), OUT(footer), OUT(reason));
}

static paseto_status generate_key(uint8_t version, uint8_t type, key *made, room reason) {
    return paseto_key_generate(version, type, made, OUT(reason));
}

static paseto_status read_key(lent text, key *made, room reason) {
    return paseto_key_read(IN(text), made, OUT(reason));
}

static paseto_status unlock_key(lent text, lent password, key *made, room reason) {
    return paseto_key_unlock(IN(text), IN(password), made, OUT(reason));
}

static paseto_status unwrap_key(lent text, const key *opener, key *made, room reason) {
    return paseto_key_unwrap(IN(text), opener, made, OUT(reason));
}

static paseto_status public_key(const key *of, key *made, room reason) {
    return paseto_key_public(of, made, OUT(reason));
}

static paseto_status key_text(const key *of, room text, room reason) { return paseto_key_text(of, OUT(text), OUT(reason)); }
static paseto_status key_pem(const key *of, room text, room reason) { return paseto_key_pem(of, OUT(text), OUT(reason)); }
static paseto_status key_id(const key *of, room text, room reason) { return paseto_key_id(of, OUT(text), OUT(reason)); }

static paseto_status status_text(paseto_status status, room text) { return paseto_error_text(status, OUT(text)); }
*/
import "C"

import (
	"crypto/subtle"
	"math"
	"time"
	"unsafe"
)

const (
	statusOK   = C.PASETO_OK
	statusRoom = C.PASETO_ROOM
	// What is enough for each text of a key.
	keyRoom = 2048
)

// bound is what a token is bound to: its footer, and its implicit assertion.
type bound struct {
	footer, assertion []byte
}

// checks are what is asked of a token's claims: the expected ones and the required names as JSON, and the limits.
type checks struct {
	expected, required []byte
	leeway             uint32
	longest            int
}

// material is what a key is made of.
type material struct {
	held C.key
}

func (key *material) version() int  { return int(key.held.version) }
func (key *material) kind() KeyType { return KeyType(key.held._type) }

// isSame compares two keys in a time that does not depend on their bytes.
func (key *material) isSame(other *material) bool {
	bytes := func(of *material) []byte {
		return unsafe.Slice((*byte)(unsafe.Pointer(&of.held)), unsafe.Sizeof(of.held))
	}
	return subtle.ConstantTimeCompare(bytes(key), bytes(other)) == 1
}

// statusText is the library's text for a status.
func statusText(status uint8) string {
	text, _ := answered(100, func(room, _ C.room) C.paseto_status { return C.status_text(C.paseto_status(status), room) })
	return string(text)
}

// version is the version of the library: 10000 is 1.0.0.
func version() int {
	return int(C.paseto_version())
}

// nanoseconds is a time as the library has it; one that it does not have is the nearest that it has.
func nanoseconds(at time.Time) C.int64_t {
	switch {
	case at.Before(time.Unix(0, math.MinInt64)):
		return math.MinInt64
	case at.After(time.Unix(0, math.MaxInt64)):
		return math.MaxInt64
	}
	return C.int64_t(at.UnixNano())
}

// write makes a token that holds a text.
func write(key *material, text []byte, to bound) ([]byte, error) {
	return answered(1024+2*len(text), func(room, reason C.room) C.paseto_status {
		return C.write_token(&key.held, lent(text), lent(to.footer), lent(to.assertion), room, reason)
	})
}

// build makes a token that holds claims.
func build(key *material, claims []byte, now time.Time, to bound) ([]byte, error) {
	return answered(1024+2*len(claims), func(room, reason C.room) C.paseto_status {
		return C.issue_token(&key.held, lent(claims), nanoseconds(now), lent(to.footer), lent(to.assertion), room, reason)
	})
}

// read returns the text of a token.
func read(key *material, token []byte, to bound) ([]byte, error) {
	return answered(len(token), func(room, reason C.room) C.paseto_status {
		return C.read_token(&key.held, lent(token), lent(to.footer), lent(to.assertion), room, reason)
	})
}

// parse returns the claims of a token that passes the checks.
func parse(key *material, token []byte, now time.Time, to bound, asked checks) ([]byte, error) {
	return answered(len(token), func(room, reason C.room) C.paseto_status {
		return C.admit_token(&key.held, lent(token), lent(asked.expected), nanoseconds(now), lent(to.footer), lent(to.assertion),
			C.uint32_t(asked.leeway), C.size_t(asked.longest), lent(asked.required), room, reason)
	})
}

// footerOf returns the footer of a token.
func footerOf(token []byte) ([]byte, error) {
	return answered(len(token), func(room, reason C.room) C.paseto_status { return C.footer_of(lent(token), room, reason) })
}

// keyOf reads a key from PASERK or PEM; unlocked one under a password; and unwrapped one that another key opens.
func keyOf(text []byte) (*material, error) {
	return made(func(key *C.key, reason C.room) C.paseto_status { return C.read_key(lent(text), key, reason) })
}

func unlocked(text, password []byte) (*material, error) {
	return made(func(key *C.key, reason C.room) C.paseto_status {
		return C.unlock_key(lent(text), lent(password), key, reason)
	})
}

func unwrapped(text []byte, opener *material) (*material, error) {
	return made(func(key *C.key, reason C.room) C.paseto_status {
		return C.unwrap_key(lent(text), &opener.held, key, reason)
	})
}

// paserk, id and pem write a key.
func (key *material) paserk() ([]byte, error) {
	return answered(keyRoom, func(room, reason C.room) C.paseto_status { return C.key_text(&key.held, room, reason) })
}

func (key *material) id() ([]byte, error) {
	return answered(keyRoom, func(room, reason C.room) C.paseto_status { return C.key_id(&key.held, room, reason) })
}

func (key *material) pem() ([]byte, error) {
	// The keys of version 2 are those of version 4.
	held := key.held
	if held.version == 2 {
		held.version = 4
	}
	return answered(keyRoom, func(room, reason C.room) C.paseto_status { return C.key_pem(&held, room, reason) })
}

// public returns the public key of a private one.
func (key *material) public() (*material, error) {
	return made(func(public *C.key, reason C.room) C.paseto_status { return C.public_key(&key.held, public, reason) })
}

// generate draws a local key, or a private key of version 2, 3 or 4.
func generate(version int, kind KeyType) (*material, error) {
	for {
		drawn, err := made(func(key *C.key, reason C.room) C.paseto_status {
			return C.generate_key(C.uint8_t(version), C.uint8_t(kind), key, reason)
		})
		if fault, isFault := err.(*Error); isFault && fault.Reason == ErrKeyRejected {
			continue
		}
		return drawn, err
	}
}

// lent is bytes as a pointer and a length.
func lent(bytes []byte) C.lent {
	if len(bytes) == 0 {
		return C.lent{}
	}
	return C.lent{at: unsafe.Pointer(&bytes[0]), length: C.size_t(len(bytes))}
}

func roomOf(bytes []byte, written *C.size_t) C.room {
	if len(bytes) == 0 {
		return C.room{written: written}
	}
	return C.room{at: unsafe.Pointer(&bytes[0]), length: C.size_t(len(bytes)), written: written}
}

// answered is the result of a call, first with a buffer of this length, then with one of the length that is needed. A refusal has
// the line that the call writes.
func answered(length int, call func(room, reason C.room) C.paseto_status) ([]byte, error) {
	line := make([]byte, 200)
	for {
		room, written, told := make([]byte, length), C.size_t(0), C.size_t(0)
		status := call(roomOf(room, &written), roomOf(line, &told))
		switch {
		case status == statusOK:
			return room[:written:written], nil
		case status == statusRoom:
			length = int(written)
		case int(told) > len(line):
			line = make([]byte, told)
		default:
			return nil, &Error{Reason: Reason(status), message: string(line[:told])}
		}
	}
}

// made is the key that a call makes.
func made(call func(*C.key, C.room) C.paseto_status) (*material, error) {
	key := &material{}
	_, err := answered(0, func(_, reason C.room) C.paseto_status { return call(&key.held, reason) })
	if err != nil {
		return nil, err
	}
	return key, nil
}
