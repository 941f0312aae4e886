package paseto

// The reasons of the library, from c/statuses.txt:
const (
	ErrMemory                        Reason = 2  // out of memory
	ErrInvalidKey                    Reason = 3  // a key has the wrong length or form
	ErrInvalidNonce                  Reason = 4  // a nonce, a seed or a salt has the wrong length
	ErrNotUtf8                       Reason = 5  // the token is not UTF-8 text, for example because of a lone surrogate
	ErrNotObject                     Reason = 6  // claims are not a JSON object
	ErrInvalidMoment                 Reason = 7  // the current time, or the time at which the token would expire, is out of range
	ErrIncorrectSize                 Reason = 8  // the token does not have three or four sections, or its payload is too short
	ErrFooterInvalid                 Reason = 9  // the token has a different footer
	ErrWrongHeader                   Reason = 10 // the token has a different version or purpose
	ErrPayloadBase64Decode           Reason = 11 // a section of the token is not valid base64url
	ErrCryption                      Reason = 12 // the token was made with a different key or implicit assertion, or was modified
	ErrChaChaCipherError             Reason = 13 // the same for local tokens of version 2
	ErrInvalidSignature              Reason = 14 // the token's signature is not valid under the public key and the implicit assertion
	ErrUtf8Error                     Reason = 15 // the decrypted text, or the token's footer, is not UTF-8
	ErrFromUtf8Error                 Reason = 16 // the signed text is not UTF-8
	ErrKeyRejected                   Reason = 17 // these bytes are not a private key
	ErrSignature                     Reason = 18 // the two halves of the private key do not belong together
	ErrPayloadJsonError              Reason = 19 // the payload of the token is not JSON
	ErrExpired                       Reason = 20 // the token has expired
	ErrUseBeforeAvailable            Reason = 21 // the token may not be used yet
	ErrRfc3339Date                   Reason = 22 // exp or nbf is not an RFC 3339 date and time
	ErrMissing                       Reason = 23 // an expected claim is missing
	ErrUnexpected                    Reason = 24 // a claim has another type, or contains a number that is not a 64-bit integer
	ErrInvalid                       Reason = 25 // an expected claim has another text
	ErrDuplicateTopLevelPayloadClaim Reason = 26 // a claim was set twice
	ErrOther                         Reason = 27 // no call raises it
	ErrRsaCipher                     Reason = 28 // the numbers of a version 1 private key are inconsistent
	ErrTooLong                       Reason = 29 // the token is longer than longest
	ErrNotNames                      Reason = 30 // no call raises it
	ErrNoPaserk                      Reason = 31 // the text does not begin as a PASERK key
	ErrOtherVersion                  Reason = 32 // the key is of another version
	ErrOtherType                     Reason = 33 // the key has another type (local, private or public)
	ErrNotPem                        Reason = 34 // the text is not a key in PEM, or has more than one
	ErrEncryptedKey                  Reason = 35 // the key in PEM is encrypted
	ErrOtherLabel                    Reason = 36 // the PEM text has another label, for example that of a public key in place of a private one
	ErrOtherAlgorithm                Reason = 37 // the key in PEM is of another algorithm
	ErrOtherCurve                    Reason = 38 // the key in PEM is of another curve
	ErrOtherSize                     Reason = 39 // the key in PEM is an RSA key of another size than 2048 bits
	ErrNoAssertion                   Reason = 40 // tokens of versions 1 and 2 have no implicit assertion
	ErrNeedsPassword                 Reason = 41 // the key is under a password
	ErrNeedsKey                      Reason = 42 // the key is wrapped or sealed
	ErrWrongKey                      Reason = 43 // the password or the key is a wrong one, or the text was modified
	ErrTooCostly                     Reason = 44 // the password of the key asks for more work than is allowed
	ErrInvalidOptions                Reason = 45 // the library is of another version than the package
	ErrNoFooter                      Reason = 46 // the token has no footer
	ErrFooterNotObject               Reason = 47 // the footer of the token is not a JSON object
	ErrNoKeyId                       Reason = 48 // the footer of the token has no string under kid
	ErrUnknownKey                    Reason = 49 // the footer of the token names no key, or a key that is not in the ring
	ErrRandom                        Reason = 50 // the system has no random bytes
)

// isOfToken tells whether the fault lies in the token.
func (r Reason) isOfToken() bool {
	switch r {
	case ErrNotUtf8,
		ErrNotObject,
		ErrIncorrectSize,
		ErrFooterInvalid,
		ErrWrongHeader,
		ErrPayloadBase64Decode,
		ErrCryption,
		ErrChaChaCipherError,
		ErrInvalidSignature,
		ErrUtf8Error,
		ErrFromUtf8Error,
		ErrPayloadJsonError,
		ErrExpired,
		ErrUseBeforeAvailable,
		ErrRfc3339Date,
		ErrMissing,
		ErrUnexpected,
		ErrInvalid,
		ErrTooLong,
		ErrNoFooter,
		ErrFooterNotObject,
		ErrNoKeyId,
		ErrUnknownKey,
		ErrRevoked:
		return true
	}
	return false
}

// Beside the reasons of the library: a token that was revoked. No random bytes have two names.
const (
	ErrRevoked  Reason = 201
	ErrNoRandom Reason = ErrRandom
)
