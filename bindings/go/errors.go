package paseto

import (
	"errors"
	"fmt"
	"net/http"
)

// Reason is why a call failed: errors.Is(err, paseto.ErrExpired) tells. Its numbers are those of the library for C.
type Reason uint8

// Error is what failed. Errors of this package are of this type, but those of files, of JSON, and of arguments.
type Error struct {
	Reason  Reason
	message string
}

// Error is the library's message, or its text for the reason. It may hold names and texts of claims.
func (e *Error) Error() string {
	if e.message != "" {
		return "paseto: " + e.message
	}
	return "paseto: " + e.Reason.Error()
}

// Is tells whether the error is of a reason; every refused token is also ErrRefused.
func (e *Error) Is(target error) bool {
	return target == e.Reason || target == ErrRefused && e.Reason.isOfToken()
}

// Error is the text of a reason, which holds nothing of a token.
func (r Reason) Error() string {
	if r == ErrRevoked {
		return "the token was revoked"
	}
	return statusText(uint8(r))
}

// ErrRefused is every reason for which a token is refused: the fault lies in the token, and not in the program.
var ErrRefused = errors.New("paseto: the token is refused")

// ErrArgument is a fault of the caller: claims that are no JSON object, a number among them that is no 64-bit integer, a footer
// that is no text, a key of another type than the call takes. Nothing was called.
var ErrArgument = errors.New("paseto: a wrong argument")

// ErrNoToken is that a request has no token.
var ErrNoToken = errors.New("paseto: the request has no token")

// StatusOf is what a service answers by HTTP: 401 for no token and for one that is refused, 403 for one of another audience, and 500 for
// every other error.
func StatusOf(err error) int {
	switch {
	case errors.Is(err, ErrInvalid):
		return http.StatusForbidden
	case errors.Is(err, ErrRefused), errors.Is(err, ErrNoToken):
		return http.StatusUnauthorized
	}
	return http.StatusInternalServerError
}

// wrong is a fault of the caller.
func wrong(format string, words ...any) error {
	return fmt.Errorf("%w: %s", ErrArgument, fmt.Sprintf(format, words...))
}
