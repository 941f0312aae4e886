package paseto

import (
	"context"
	"encoding/json"
	"errors"
	"fmt"
	"net/http"
	"strings"
)

// Admitter is a Key or a *KeyRing.
type Admitter interface {
	admitted(token string, options []Option) (json.RawMessage, error)
}

// claimsKey is under what the claims stand in a context.
type claimsKey struct{}

// ErrNoClaims is that a context has no claims: Middleware did not handle the request, or it had no token.
var ErrNoClaims = errors.New("paseto: the request has no claims")

// Middleware lets requests through whose token the keys admit with the options, and answers 401 or 403 to others, with
// WWW-Authenticate as RFC 6750 has it. ClaimsFrom reads the claims. The token is that of the header `Authorization: Bearer`,
// or of the cookie that Cookie names. Options: those of Admit, Cookie, Optional, IsRevoked, OnRefusal. It panics where an option
// is wrong, as at the start of a service.
func Middleware(keys Admitter, options ...Option) func(http.Handler) http.Handler {
	made, err := settingsOf(options)
	if err == nil {
		_, err = made.checks()
	}
	if err != nil {
		panic(err)
	}
	return func(next http.Handler) http.Handler {
		return http.HandlerFunc(func(w http.ResponseWriter, r *http.Request) {
			token := made.tokenOf(r)
			if token == "" && made.isOptional {
				next.ServeHTTP(w, r)
				return
			}
			claims, err := made.claims(r, keys, token, options)
			if err == nil {
				next.ServeHTTP(w, r.WithContext(context.WithValue(r.Context(), claimsKey{}, claims)))
				return
			}
			if made.onRefusal != nil {
				made.onRefusal(r, err)
			}
			refuse(w, err)
		})
	}
}

// ClaimsFrom reads the claims of a request's token from its context into a struct or a map.
func ClaimsFrom(ctx context.Context, into any) error {
	claims, isThere := ctx.Value(claimsKey{}).(json.RawMessage)
	if !isThere {
		return ErrNoClaims
	}
	return json.Unmarshal(claims, into)
}

// tokenOf is the token of a request, or empty where it has none.
func (made *settings) tokenOf(r *http.Request) string {
	if made.cookie != "" {
		if cookie, err := r.Cookie(made.cookie); err == nil {
			return cookie.Value
		}
		return ""
	}
	// Of two headers another service might read the other one: together they are no token.
	scheme, token, _ := strings.Cut(strings.Join(r.Header.Values("Authorization"), ","), " ")
	if !strings.EqualFold(scheme, "Bearer") {
		return ""
	}
	return strings.TrimSpace(token)
}

// claims are those of a request that is let through.
func (made *settings) claims(r *http.Request, keys Admitter, token string, options []Option) (json.RawMessage, error) {
	if token == "" {
		return nil, ErrNoToken
	}
	claims, err := keys.admitted(token, options)
	if err != nil || made.isRevoked == nil {
		return claims, err
	}
	isRevoked, err := made.isRevoked(r.Context(), claims)
	if err == nil && isRevoked {
		err = &Error{Reason: ErrRevoked}
	}
	return claims, err
}

// refuse answers a request that is not let through. Nothing of the token is in the answer.
func refuse(w http.ResponseWriter, err error) {
	status := StatusOf(err)
	var fault *Error
	switch {
	case err == ErrNoToken:
		w.Header().Set("WWW-Authenticate", "Bearer")
	case status != http.StatusInternalServerError && errors.As(err, &fault):
		name := "invalid_token"
		if status == http.StatusForbidden {
			name = "insufficient_scope"
		}
		w.Header().Set("WWW-Authenticate", fmt.Sprintf("Bearer error=%q, error_description=%q", name, described(fault.Reason)))
	}
	w.Header().Set("Cache-Control", "no-store")
	http.Error(w, strings.ToLower(http.StatusText(status)), status)
}

// described is a reason in the letters that RFC 6750 allows.
func described(reason Reason) string {
	return strings.Map(func(letter rune) rune {
		if letter < ' ' || letter > '~' || letter == '"' || letter == '\\' {
			return -1
		}
		return letter
	}, reason.Error())
}
