package paseto

import (
	"context"
	"encoding/json"
	"math"
	"net/http"
	"time"
	"unicode/utf8"
)

// Option changes a call. Each option says which calls it is for; others pass over it.
type Option func(*settings) error

// settings are what the options of a call come to.
type settings struct {
	footer, assertion []byte
	hasFooter         bool
	now               time.Time
	expiresIn         time.Duration
	expected          map[string]any
	required          []string
	leeway            time.Duration
	longest           int
	cookie            string
	isOptional        bool
	isRevoked         func(context.Context, json.RawMessage) (bool, error)
	onRefusal         func(*http.Request, error)
}

// settingsOf applies options to the defaults.
func settingsOf(options []Option) (*settings, error) {
	made := &settings{
		now: time.Now(), expiresIn: time.Hour, expected: map[string]any{}, required: []string{"exp"}, leeway: time.Second,
		longest: 8192,
	}
	for _, option := range options {
		if err := option(made); err != nil {
			return nil, err
		}
	}
	return made, nil
}

// Footer is the footer of a token that is made, or that a token must have: a text, or a value that becomes compact JSON.
// Everybody can read it. Without this option a token that is made has none, and one that is read may have any.
func Footer(footer any) Option {
	return func(made *settings) (err error) {
		made.hasFooter = true
		if text, isText := footer.(string); isText {
			made.footer, err = textOf(text, "a footer")
		} else if made.footer, err = json.Marshal(footer); err != nil {
			err = wrong("a footer: %v", err)
		}
		return err
	}
}

// Assertion is the implicit assertion of a token of version 3 or 4, which is not in it: both sides give the same.
func Assertion(assertion string) Option {
	return func(made *settings) (err error) {
		made.assertion, err = textOf(assertion, "an implicit assertion")
		return err
	}
}

// Now is the moment at which a token is issued or admitted; by default it is that of the clock.
func Now(now time.Time) Option {
	return func(made *settings) error {
		made.now = now
		return nil
	}
}

// ExpiresIn is how long an issued token is valid, where its claims have no exp: an hour by default, and for ever where it is
// negative.
func ExpiresIn(duration time.Duration) Option {
	return func(made *settings) error {
		made.expiresIn = duration
		return nil
	}
}

// Audience is the aud that an admitted token must have.
func Audience(name string) Option {
	return Expect("aud", name)
}

// Expect is a claim that an admitted token must have.
func Expect(name string, value any) Option {
	return func(made *settings) error {
		made.expected[name] = value
		return nil
	}
}

// Require names all claims that an admitted token must have, whatever their values: by default exp alone, since a token
// without it never expires.
func Require(names ...string) Option {
	return func(made *settings) error {
		made.required = names
		return nil
	}
}

// Leeway is by how much the clocks of issuer and reader may differ: a second by default, so that a token is admitted in the
// second in which it was issued. Parts of a second count as a whole one.
func Leeway(leeway time.Duration) Option {
	return func(made *settings) error {
		if leeway < 0 || leeway > math.MaxUint32*time.Second {
			return wrong("a leeway of %v", leeway)
		}
		made.leeway = leeway
		return nil
	}
}

// Longest is how many bytes an admitted token may have, 8192 by default. A longer one is refused before it is decoded.
func Longest(bytes int) Option {
	return func(made *settings) error {
		if bytes < 1 {
			return wrong("a longest token of %d bytes", bytes)
		}
		made.longest = bytes
		return nil
	}
}

// Cookie lets Middleware take the token from a cookie, in place of the header.
func Cookie(name string) Option {
	return func(made *settings) error {
		made.cookie = name
		return nil
	}
}

// Optional lets Middleware pass requests without a token. One with a token that is refused does not pass.
func Optional() Option {
	return func(made *settings) error {
		made.isOptional = true
		return nil
	}
}

// IsRevoked asks Middleware's caller about the claims of an admitted token. What fails is answered with 500.
func IsRevoked(ask func(ctx context.Context, claims json.RawMessage) (bool, error)) Option {
	return func(made *settings) error {
		made.isRevoked = ask
		return nil
	}
}

// OnRefusal tells Middleware's caller which request was not let through, and why, for a log.
func OnRefusal(tell func(*http.Request, error)) Option {
	return func(made *settings) error {
		made.onRefusal = tell
		return nil
	}
}

// bound is what a token under the key is bound to.
func (made *settings) bound(key Key) (bound, error) {
	if len(made.assertion) > 0 && key.Version() < 3 {
		return bound{}, wrong("tokens of versions 1 and 2 have no implicit assertion")
	}
	return bound{made.footer, made.assertion}, nil
}

// checks are what the library asks of claims.
func (made *settings) checks() (checks, error) {
	expected, err := claimsOf(made.expected)
	if err != nil {
		return checks{}, err
	}
	var required []byte
	if len(made.required) > 0 {
		for _, name := range made.required {
			if _, err = textOf(name, "a required name"); err != nil {
				return checks{}, err
			}
		}
		required, _ = json.Marshal(made.required)
	}
	seconds := (made.leeway + time.Second - 1) / time.Second
	return checks{expected, required, uint32(seconds), made.longest}, nil
}

// textOf is the bytes of a text, which must be UTF-8.
func textOf(text, what string) ([]byte, error) {
	if !utf8.ValidString(text) {
		return nil, wrong("%s is no UTF-8", what)
	}
	return []byte(text), nil
}
