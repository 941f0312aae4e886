package paseto

import (
	"context"
	"fmt"
)

// KeyType is what a key does.
type KeyType uint8

// Local keys encrypt and decrypt, private ones sign, and public ones verify.
const (
	Local   KeyType = 1
	Private KeyType = 2
	Public  KeyType = 3
)

func (t KeyType) String() string {
	return [...]string{"no", "local", "private", "public"}[t&3]
}

// Key is a key of a version, which no verb of fmt shows. It may be used by several goroutines at once.
type Key struct {
	// A function, since fmt shows what is behind a pointer where a key is a hidden member of another struct.
	held func() *material
}

// hidden is the key of some material.
func hidden(held *material) Key {
	return Key{func() *material { return held }}
}

// hiddenOr is the same for what a call returns with an error.
func hiddenOr(held *material, err error) (Key, error) {
	if err != nil {
		return Key{}, err
	}
	return hidden(held), nil
}

// ParseKey reads a key from PASERK text, as in the files of `paseto keygen`, which may end in one newline, or from PEM, as
// openssl writes it: an Ed25519 key is read as version 4, a P-384 key as version 3, and an RSA key of 2048 bits as version 1. A
// key that is locked is refused with ErrNeedsPassword or ErrNeedsKey.
func ParseKey(text []byte) (Key, error) {
	return hiddenOr(keyOf(text))
}

// UnlockKey reads a key that is under a password, k4.local-pw.. or k4.secret-pw..; with a wrong one it is ErrWrongKey. It takes
// the time and the memory that the key's text asks for (Argon2id: 0.2 seconds and 64 MiB, unless the writer chose others). Where
// the context ends first, its error is returned at once; the call that was begun still runs to its end, on copies.
func UnlockKey(ctx context.Context, text, password []byte) (Key, error) {
	if err := ctx.Err(); err != nil {
		return Key{}, err
	}
	if ctx.Done() == nil {
		return hiddenOr(unlocked(text, password))
	}
	type answer struct {
		held *material
		err  error
	}
	// The caller may clear his bytes once this has returned.
	text, password = append([]byte(nil), text...), append([]byte(nil), password...)
	answers := make(chan answer, 1)
	go func() {
		held, err := unlocked(text, password)
		for at := range password {
			password[at] = 0
		}
		answers <- answer{held, err}
	}()
	select {
	case found := <-answers:
		return hiddenOr(found.held, found.err)
	case <-ctx.Done():
		return Key{}, ctx.Err()
	}
}

// UnwrapKey reads a key that another one opens: k4.local-wrap.. or k4.secret-wrap.. with the local key that wrapped it, or
// k4.seal.. with the private key of the public one that it was sealed to. With another key it is ErrWrongKey.
func UnwrapKey(text []byte, opener Key) (Key, error) {
	if opener.held == nil {
		return Key{}, wrong("there is no key")
	}
	return hiddenOr(unwrapped(text, opener.held()))
}

// GenerateKey draws a new local or private key. Those that sign in version 1 are made by openssl.
func GenerateKey(kind KeyType, version int) (Key, error) {
	if version < 1 || version > 4 || kind != Local && kind != Private {
		return Key{}, wrong("a key is Local or Private, of version 1 to 4")
	}
	if kind == Private && version == 1 {
		return Key{}, wrong("a private key of version 1 is made by openssl genpkey")
	}
	return hiddenOr(generate(version, kind))
}

// Version is the version of tokens that the key is for, or 0 for the zero Key.
func (k Key) Version() int {
	if k.held == nil {
		return 0
	}
	return k.held().version()
}

// Type is what the key does, or 0 for the zero Key.
func (k Key) Type() KeyType {
	if k.held == nil {
		return 0
	}
	return k.held().kind()
}

// Format shows the type and the version of a key, for every verb.
func (k Key) Format(state fmt.State, _ rune) {
	fmt.Fprintf(state, "<%s key of version %d>", k.Type(), k.Version())
}

// Equal compares two keys in a time that does not depend on their bytes.
func (k Key) Equal(other Key) bool {
	if k.held == nil || other.held == nil {
		return k.held == nil && other.held == nil
	}
	return k.held().isSame(other.held())
}

// PASERK is the key as text, k4.local.., to store it.
func (k Key) PASERK() (string, error) {
	return k.told((*material).paserk)
}

// PEM is a private or public key byte for byte as `openssl pkey` writes it.
func (k Key) PEM() (string, error) {
	return k.told((*material).pem)
}

// ID is the PASERK id, k4.lid.., which identifies the key without revealing it. A private key has another one than its public key.
func (k Key) ID() (string, error) {
	return k.told((*material).id)
}

// Public is the public key of a private one.
func (k Key) Public() (Key, error) {
	if k.Type() != Private {
		return Key{}, wrong("the public key of a %v", k)
	}
	return hiddenOr(k.held().public())
}

func (k Key) told(call func(*material) ([]byte, error)) (string, error) {
	if k.held == nil {
		return "", wrong("there is no key")
	}
	text, err := call(k.held())
	return string(text), err
}
