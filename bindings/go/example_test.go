package paseto_test

import (
	"errors"
	"fmt"
	"net/http"
	"net/http/httptest"

	paseto "paseto-proved"
)

type claims struct {
	Sub string `json:"sub"`
	Aud string `json:"aud"`
}

// A token that is encrypted, for readers who have the same key.
func Example() {
	key, err := paseto.GenerateKey(paseto.Local, 4)
	if err != nil {
		panic(err)
	}
	token, err := key.Issue(claims{Sub: "ada", Aud: "customers"})
	if err != nil {
		panic(err)
	}
	var found claims
	if err = key.Admit(token, &found, paseto.Audience("customers")); err != nil {
		panic(err)
	}
	fmt.Println(found.Sub)
	// Output: ada
}

// Why a token is refused.
func ExampleKey_Admit() {
	key, _ := paseto.GenerateKey(paseto.Local, 4)
	token, _ := key.Issue(claims{Sub: "ada", Aud: "customers"})
	err := key.Admit(token, nil, paseto.Audience("staff"))
	fmt.Println(errors.Is(err, paseto.ErrInvalid), paseto.StatusOf(err))
	// Output: true 403
}

// A ring whose newest key issues, while tokens of the one before are still admitted.
func ExampleKeyRing() {
	ring := &paseto.KeyRing{}
	before, _ := paseto.GenerateKey(paseto.Local, 4)
	newest, _ := paseto.GenerateKey(paseto.Local, 4)
	id, _ := ring.Add(before)
	token, _ := ring.Issue(id, claims{Sub: "ada"})
	if _, err := ring.Add(newest); err != nil {
		panic(err)
	}
	fmt.Println(ring.Admit(token, nil))
	ring.Remove(id)
	fmt.Println(errors.Is(ring.Admit(token, nil), paseto.ErrUnknownKey))
	// Output:
	// <nil>
	// true
}

// A handler that only requests with a token reach.
func ExampleMiddleware() {
	key, _ := paseto.GenerateKey(paseto.Local, 4)
	page := http.HandlerFunc(func(w http.ResponseWriter, r *http.Request) {
		var found claims
		if err := paseto.ClaimsFrom(r.Context(), &found); err != nil {
			http.Error(w, "no claims", http.StatusInternalServerError)
			return
		}
		fmt.Fprintf(w, "hello %s", found.Sub)
	})
	service := httptest.NewServer(paseto.Middleware(key, paseto.Audience("customers"))(page))
	defer service.Close()

	answer, _ := http.Get(service.URL)
	fmt.Println(answer.StatusCode, answer.Header.Get("WWW-Authenticate"))
	// Output: 401 Bearer
}
