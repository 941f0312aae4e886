package paseto

import (
	"context"
	"crypto/rand"
	"crypto/rsa"
	"crypto/sha512"
	"crypto/x509"
	"encoding/base64"
	"encoding/hex"
	"encoding/pem"
	"errors"
	"os"
	"path/filepath"
	"regexp"
	"strings"
	"testing"
)

// tested is a file of the repository's tests, which the packed module does not have.
func tested(t testing.TB, name string) []byte {
	t.Helper()
	if _, err := os.Stat("../../tests"); errors.Is(err, os.ErrNotExist) {
		t.Skip("the keys are in the repository")
	}
	return got[[]byte](t)(os.ReadFile("../../tests/" + name))
}

// told is a constant of tests/c_library/rsa.h: a text of OpenSSL's keys, or what an independent program locked.
func told(t testing.TB, name string) string {
	t.Helper()
	_, behind, isThere := strings.Cut(string(tested(t, "c_library/rsa.h")), name+"[] =")
	if !isThere {
		t.Fatalf("there is no %s", name)
	}
	value, _, _ := strings.Cut(behind, ";")
	var text strings.Builder
	for _, piece := range regexp.MustCompile(`"([^"]+)"`).FindAllStringSubmatch(value, -1) {
		text.WriteString(piece[1])
	}
	return text.String()
}

// spelled is contents in base64url, as PASERK has them.
func spelled(contents []byte) string {
	return base64.RawURLEncoding.EncodeToString(contents)
}

// armored is contents in PEM.
func armored(label string, contents []byte) string {
	return string(pem.EncodeToMemory(&pem.Block{Type: label, Bytes: contents}))
}

// asks compares the texts of a private key and of its public key with those that are wanted.
func asks(t *testing.T, private Key, secret, public, secretID, publicID string) {
	t.Helper()
	half := got[Key](t)(private.Public())
	is(t, "the private key", private.Type(), Private)
	is(t, "its version", private.Version(), 1)
	is(t, "the text of the private key", got[string](t)(private.PASERK()), secret)
	is(t, "the text of the public key", got[string](t)(half.PASERK()), public)
	is(t, "the id of the private key", got[string](t)(private.ID()), secretID)
	is(t, "the id of the public key", got[string](t)(half.ID()), publicID)
	is(t, "the public key is read back", got[Key](t)(ParseKey([]byte(public+"\n"))).Equal(half), true)
}

func TestVersion1OfOpenSSL(t *testing.T) {
	secret, public := told(t, "RSA_SECRET_TEXT"), told(t, "RSA_PUBLIC_TEXT")
	asks(t, got[Key](t)(ParseKey([]byte(secret))), secret, public, told(t, "RSA_SECRET_ID"), told(t, "RSA_PUBLIC_ID"))
	half := got[Key](t)(ParseKey([]byte(public)))
	text := got[string](t)(half.Verify(told(t, "RSA_TOKEN"), Footer("a footer")))
	is(t, "a token that OpenSSL signed", text, `{"data":"this is a signed message"}`)
}

func TestVersion1OfGo(t *testing.T) {
	made := got[*rsa.PrivateKey](t)(rsa.GenerateKey(rand.Reader, 2048))
	inner, info := x509.MarshalPKCS1PrivateKey(made), got[[]byte](t)(x509.MarshalPKCS8PrivateKey(made))
	half := got[[]byte](t)(x509.MarshalPKIXPublicKey(&made.PublicKey))
	secret, public := "k1.secret."+spelled(inner), "k1.public."+spelled(half)
	id := func(front, text string) string {
		sum := sha512.Sum384([]byte(front + text))
		return front + spelled(sum[:33])
	}
	texts := []string{secret, secret + "\n", "k1.secret." + spelled(info), armored("PRIVATE KEY", info), armored("RSA PRIVATE KEY", inner)}
	for _, text := range texts {
		private := got[Key](t)(ParseKey([]byte(text)))
		asks(t, private, secret, public, id("k1.sid.", secret), id("k1.pid.", public))
		is(t, "the PEM of the private key", got[string](t)(private.PEM()), armored("PRIVATE KEY", info))
		is(t, "the PEM of the public key", got[string](t)(got[Key](t)(private.Public()).PEM()), armored("PUBLIC KEY", half))
	}
}

func TestVersion1Locked(t *testing.T) {
	wrapped, protected := []byte(told(t, "RSA_WRAPPED")), []byte(told(t, "RSA_PROTECTED"))
	digits := got[[]byte](t)(hex.DecodeString(told(t, "RSA_WRAPPING_KEY")))
	wrapping := got[Key](t)(ParseKey([]byte("k1.local." + spelled(digits))))
	private := got[Key](t)(ParseKey([]byte(told(t, "RSA_SECRET_TEXT"))))
	is(t, "a wrapped key", got[Key](t)(UnwrapKey(wrapped, wrapping)).Equal(private), true)
	is(t, "a key under a password", got[Key](t)(UnlockKey(context.Background(), protected, []byte(password))).Equal(private), true)
	for name, row := range map[string]struct {
		call   func() (Key, error)
		reason Reason
	}{
		"no wrapping key":              {func() (Key, error) { return ParseKey(wrapped) }, ErrNeedsKey},
		"no password":                  {func() (Key, error) { return ParseKey(protected) }, ErrNeedsPassword},
		"a wrong password":             {func() (Key, error) { return UnlockKey(context.Background(), protected, []byte("passwort")) }, ErrWrongKey},
		"another wrapping key":         {func() (Key, error) { return UnwrapKey(wrapped, key(t, Local, 1)) }, ErrWrongKey},
		"a key of another version":     {func() (Key, error) { return UnwrapKey(wrapped, key(t, Local, 4)) }, ErrOtherVersion},
		"a private key that unwraps":   {func() (Key, error) { return UnwrapKey(wrapped, private) }, ErrOtherType},
		"a sealed key, which has none": {func() (Key, error) { return UnwrapKey([]byte("k1.seal.AAAA"), private) }, ErrOtherVersion},
	} {
		_, err := row.call()
		fails(t, name, err, row.reason)
	}
}

func TestVersion1Refusals(t *testing.T) {
	secret, public, short := told(t, "RSA_SECRET_TEXT"), told(t, "RSA_PUBLIC_TEXT"), told(t, "RSA_SHORT_TEXT")
	inner := got[[]byte](t)(base64.RawURLEncoding.DecodeString(strings.TrimPrefix(short, "k1.secret.")))
	label, body, _ := strings.Cut(armored("RSA PRIVATE KEY", inner), "\n")
	encrypted := label + "\nProc-Type: 4,ENCRYPTED\nDEK-Info: AES-256-CBC," + strings.Repeat("00", 16) + "\n\n" + body
	pkcs1 := got[[]byte](t)(hex.DecodeString(told(t, "RSA_PUBLIC")))
	for name, row := range map[string]struct {
		text   string
		reason Reason
	}{
		"a key of 1024 bits":               {short, ErrInvalidKey},
		"one in PEM":                       {armored("RSA PRIVATE KEY", inner), ErrOtherSize},
		"an encrypted key":                 {armored("ENCRYPTED PRIVATE KEY", inner), ErrEncryptedKey},
		"one in the older form":            {encrypted, ErrEncryptedKey},
		"a private key as a public one":    {strings.Replace(secret, "secret", "public", 1), ErrInvalidKey},
		"a public key as a private one":    {strings.Replace(public, "public", "secret", 1), ErrInvalidKey},
		"a public key in PKCS #1":          {"k1.public." + spelled(pkcs1), ErrInvalidKey},
		"a key with three bytes behind it": {secret + "AAAA", ErrInvalidKey},
		"a key without its last bytes":     {secret[:len(secret)-4], ErrInvalidKey},
		"a sealed key":                     {"k1.seal.AAAA", ErrOtherVersion},
		"an id":                            {told(t, "RSA_PUBLIC_ID"), ErrNoPaserk},
	} {
		_, err := ParseKey([]byte(row.text))
		fails(t, name, err, row.reason)
	}
	private := got[Key](t)(ParseKey([]byte(secret)))
	half := got[Key](t)(private.Public())
	_, err := private.Verify(told(t, "RSA_TOKEN"))
	fails(t, "verifying under a private key", err, ErrArgument)
	_, err = half.Sign("a")
	fails(t, "signing under a public key", err, ErrArgument)
	_, err = half.Public()
	fails(t, "the public key of a public one", err, ErrArgument)
}

func TestVersion1Rings(t *testing.T) {
	private, other := got[Key](t)(ParseKey([]byte(told(t, "RSA_SECRET_TEXT")))), key(t, Private, 1)
	ring, reading, mixed := &KeyRing{}, &KeyRing{}, &KeyRing{}
	id := got[string](t)(ring.Add(private))
	is(t, "the id of a private key in a ring", id, told(t, "RSA_PUBLIC_ID"))
	is(t, "that of its public key", got[string](t)(reading.Add(got[Key](t)(private.Public()))), id)
	token := got[string](t)(ring.Issue(id, person{Sub: "ada"}))
	if !strings.HasPrefix(token, "v1.public.") {
		t.Errorf("the token is %.12s", token)
	}
	is(t, "the footer", got[string](t)(FooterOf(token)), `{"kid":"`+id+`"}`)
	folder := t.TempDir()
	for name, text := range map[string]string{
		"a.key": got[string](t)(private.PASERK()), "b.pem": got[string](t)(got[Key](t)(other.Public()).PEM()), "c.key": got[string](t)(key(t, Local, 1).PASERK()),
	} {
		if err := os.WriteFile(filepath.Join(folder, name), []byte(text), 0o600); err != nil {
			t.Fatal(err)
		}
	}
	read := got[*KeyRing](t)(ReadKeyRing(folder))
	for name, admitting := range map[string]*KeyRing{"its ring": ring, "a ring of the public key": reading, "a folder": read} {
		var found person
		if err := admitting.Admit(token, &found); err != nil || found.Sub != "ada" {
			t.Errorf("%s: %v %v", name, found, err)
		}
	}
	named := got[string](t)(other.Issue(person{Sub: "mira"}, Footer(map[string]string{"kid": got[string](t)(got[Key](t)(other.Public()).ID())})))
	if err := read.Admit(named, nil); err != nil {
		t.Errorf("the other key of the folder: %v", err)
	}
	fails(t, "a ring without the key", mixed.Admit(token, nil), ErrUnknownKey)
	if err := mixed.AddAs(id, other); err != nil {
		t.Fatal(err)
	}
	fails(t, "another key under the id", mixed.Admit(token, nil), ErrInvalidSignature)
	_, err := reading.Issue(id, person{})
	fails(t, "issuing under a public key", err, ErrArgument)
	if err = os.WriteFile(filepath.Join(folder, "d.key"), []byte(told(t, "RSA_SHORT_TEXT")), 0o600); err != nil {
		t.Fatal(err)
	}
	_, err = ReadKeyRing(folder)
	fails(t, "a key of 1024 bits in a folder", err, ErrInvalidKey)
	if err == nil || !strings.Contains(err.Error(), "d.key") {
		t.Errorf("the file is not named: %v", err)
	}
}
