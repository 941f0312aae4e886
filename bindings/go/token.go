// Package paseto makes and reads PASETO tokens, versions 1 to 4, by the library for C that is proved in Rattle.
//
// A token that a local key issues is encrypted. One that a private key issues is signed: everybody can read it, and the public
// key verifies it. A KeyRing picks the key that the footer of a token names. Middleware puts the claims of a request's token
// into its context. All calls may be made from several goroutines at once.
package paseto

import (
	"bytes"
	"encoding/json"
	"strconv"
	"strings"
	"time"
)

// Issue makes a token that holds claims: a struct, a map, or whatever encoding/json makes an object of, whose numbers are 64-bit
// integers. The token is usable at once; exp, iat and nbf are set where the claims do not set them. Options: ExpiresIn, Now,
// Footer, Assertion.
func (k Key) Issue(claims any, options ...Option) (string, error) {
	made, to, err := k.prepared(options, Local, Private)
	if err != nil {
		return "", err
	}
	text, err := claimsOf(claims)
	if err != nil {
		return "", err
	}
	members := map[string]json.RawMessage{}
	if err = json.Unmarshal(text, &members); err != nil {
		return "", wrong("claims: %v", err)
	}
	dates := map[string]time.Time{"nbf": made.now.Add(-time.Second), "iat": made.now}
	if made.expiresIn >= 0 {
		dates["exp"] = made.now.Add(made.expiresIn)
	}
	for name, date := range dates {
		if _, isSet := members[name]; !isSet {
			members[name], _ = json.Marshal(date.UTC().Truncate(time.Second).Format(time.RFC3339))
		}
	}
	if text, err = json.Marshal(members); err != nil {
		return "", wrong("claims: %v", err)
	}
	var token []byte
	if _, expires := members["exp"]; expires {
		token, err = build(k.held(), text, made.now, to)
	} else {
		// The library would add an exp.
		token, err = write(k.held(), text, to)
	}
	return string(token), err
}

// Admit reads the claims of a token into a struct or a map, or nowhere where into is nil, if the token was made under this key,
// is usable now, and has the claims that the options ask for. Of a private key the public one reads. Options: Audience, Expect,
// Require, Leeway, Longest, Now, Footer, Assertion.
func (k Key) Admit(token string, into any, options ...Option) error {
	claims, err := k.admitted(token, options)
	if err != nil || into == nil {
		return err
	}
	return json.Unmarshal(claims, into)
}

func (k Key) admitted(token string, options []Option) (json.RawMessage, error) {
	reader, err := k.reader()
	if err != nil {
		return nil, err
	}
	made, err := settingsOf(options)
	if err != nil {
		return nil, err
	}
	return made.admitted(reader, token)
}

// admitted is the claims of a token under a key that reads.
func (made *settings) admitted(key Key, token string) (json.RawMessage, error) {
	if len(token) > made.longest {
		return nil, &Error{Reason: ErrTooLong}
	}
	asked, err := made.checks()
	if err != nil {
		return nil, err
	}
	to, err := made.bound(key)
	if err != nil {
		return nil, err
	}
	if !made.hasFooter {
		if to.footer, err = footerOf([]byte(token)); err != nil {
			return nil, err
		}
	}
	claims, err := parse(key.held(), []byte(token), made.now, to, asked)
	return claims, of(err, made.expected)
}

// of makes an expected number or list that is another one what a text is: the token is for another audience.
func of(err error, expected map[string]any) error {
	fault, isFault := err.(*Error)
	if !isFault || fault.Reason != ErrUnexpected {
		return err
	}
	for name := range expected {
		if strings.Contains(fault.message, "'"+name+"'") {
			return &Error{Reason: ErrInvalid, message: fault.message}
		}
	}
	return err
}

// Encrypt makes a token under a local key that holds a text. Options: Footer, Assertion.
func (k Key) Encrypt(text string, options ...Option) (string, error) {
	return k.write(text, options, Local)
}

// Sign makes a token under a private key that holds a text, which everybody can read. Options: Footer, Assertion.
func (k Key) Sign(text string, options ...Option) (string, error) {
	return k.write(text, options, Private)
}

// Decrypt returns the text of a token under a local key. It checks no times. Options: Footer, Assertion.
func (k Key) Decrypt(token string, options ...Option) (string, error) {
	return k.read(token, options, Local)
}

// Verify returns the text of a token under a public key. It checks no times. Options: Footer, Assertion.
func (k Key) Verify(token string, options ...Option) (string, error) {
	return k.read(token, options, Public)
}

// FooterOf returns the footer of a token, empty if it has none. Do not trust it before the token was admitted.
func FooterOf(token string) (string, error) {
	footer, err := footerOf([]byte(token))
	return string(footer), err
}

func (k Key) write(text string, options []Option, kind KeyType) (string, error) {
	_, to, err := k.prepared(options, kind)
	if err != nil {
		return "", err
	}
	given, err := textOf(text, "a text")
	if err != nil {
		return "", err
	}
	token, err := write(k.held(), given, to)
	return string(token), err
}

func (k Key) read(token string, options []Option, kind KeyType) (string, error) {
	made, to, err := k.prepared(options, kind)
	if err != nil {
		return "", err
	}
	if !made.hasFooter {
		if to.footer, err = footerOf([]byte(token)); err != nil {
			return "", err
		}
	}
	text, err := read(k.held(), []byte(token), to)
	return string(text), err
}

// prepared is what the options of a call come to that takes keys of these types.
func (k Key) prepared(options []Option, kinds ...KeyType) (*settings, bound, error) {
	isRight := false
	for _, kind := range kinds {
		isRight = isRight || k.Type() == kind
	}
	if !isRight {
		return nil, bound{}, wrong("a call for a %v key takes no %v", kinds[len(kinds)-1], k)
	}
	made, err := settingsOf(options)
	if err != nil {
		return nil, bound{}, err
	}
	to, err := made.bound(k)
	return made, to, err
}

// reader is the key that reads what this one makes.
func (k Key) reader() (Key, error) {
	switch k.Type() {
	case Private:
		return k.Public()
	case Local, Public:
		return k, nil
	}
	return Key{}, wrong("there is no key")
}

// claimsOf is claims as the text of a JSON object, whose numbers are 64-bit integers.
func claimsOf(claims any) ([]byte, error) {
	text, err := json.Marshal(claims)
	if err != nil {
		return nil, wrong("claims: %v", err)
	}
	decoder := json.NewDecoder(bytes.NewReader(text))
	decoder.UseNumber()
	var read any
	if err = decoder.Decode(&read); err != nil {
		return nil, wrong("claims: %v", err)
	}
	if _, isObject := read.(map[string]any); !isObject {
		return nil, wrong("claims are a JSON object")
	}
	return text, whole(read)
}

// whole tells whether all numbers of a value are 64-bit integers.
func whole(value any) error {
	switch it := value.(type) {
	case json.Number:
		_, err := strconv.ParseInt(string(it), 10, 64)
		if _, tooLarge := strconv.ParseUint(string(it), 10, 64); err != nil && tooLarge != nil {
			return wrong("the number %s is no 64-bit integer", it)
		}
	case []any:
		for _, item := range it {
			if err := whole(item); err != nil {
				return err
			}
		}
	case map[string]any:
		for _, item := range it {
			if err := whole(item); err != nil {
				return err
			}
		}
	}
	return nil
}
