//go:build !paseto_shared

package paseto

// libpaseto.a is linked, so that a program needs no library where it runs. With the tag paseto_shared it is libpaseto.so.

// #cgo LDFLAGS: -l:libpaseto.a -Wl,--as-needed
import "C"
