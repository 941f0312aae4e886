// Tokens that golang-jwt admits, for bench/services.sh.
package jwt_bench

import (
	"crypto/ed25519"
	"testing"
	"time"

	"github.com/golang-jwt/jwt"
)

func claims() jwt.MapClaims {
	return jwt.MapClaims{"sub": "ada", "aud": "customers", "exp": time.Now().Add(time.Hour).Unix()}
}

// admits parses a token side by side, by as many goroutines as -cpu says.
func admits(b *testing.B, method jwt.SigningMethod, signing, verifying interface{}) {
	token, err := jwt.NewWithClaims(method, claims()).SignedString(signing)
	if err != nil {
		b.Fatal(err)
	}
	given := func(*jwt.Token) (interface{}, error) { return verifying, nil }
	b.ResetTimer()
	b.RunParallel(func(loop *testing.PB) {
		for loop.Next() {
			found := jwt.MapClaims{}
			if _, err := jwt.ParseWithClaims(token, found, given); err != nil || !found.VerifyAudience("customers", true) {
				b.Fatal(err)
			}
		}
	})
}

func BenchmarkHS256(b *testing.B) {
	key := []byte("0123456789abcdef0123456789abcdef")
	admits(b, jwt.SigningMethodHS256, key, key)
}

func BenchmarkEdDSA(b *testing.B) {
	public, private, err := ed25519.GenerateKey(nil)
	if err != nil {
		b.Fatal(err)
	}
	admits(b, jwt.SigningMethodEdDSA, private, public)
}
