// A token of the subject ada by the key of a file, or the subject of a token; the texts and the ids of a key, and of the public key
// of a private one; and the text of a key that is locked:
//
//	user make KEY
//	user read KEY TOKEN
//	user tell KEY
//	user unlock KEY PASSWORD
//	user unwrap KEY OPENER
package main

import (
	"context"
	"fmt"
	"os"

	paseto "paseto-proved"
)

// keyOf is the key of the file of the words.
func keyOf(words []string) (paseto.Key, error) {
	text, err := os.ReadFile(words[1])
	if err != nil {
		return paseto.Key{}, err
	}
	switch words[0] {
	case "unlock":
		return paseto.UnlockKey(context.Background(), text, []byte(words[2]))
	case "unwrap":
		opener, err := keyOf([]string{"tell", words[2]})
		if err != nil {
			return paseto.Key{}, err
		}
		return paseto.UnwrapKey(text, opener)
	}
	return paseto.ParseKey(text)
}

// tell is the text and the id of a key, and those of the public key of a private one.
func tell(key paseto.Key) (string, error) {
	text, err := key.PASERK()
	if err != nil {
		return "", err
	}
	id, err := key.ID()
	if err != nil || key.Type() != paseto.Private {
		return text + "\n" + id, err
	}
	half, err := key.Public()
	if err != nil {
		return "", err
	}
	behind, err := tell(half)
	return text + "\n" + id + "\n" + behind, err
}

func run(words []string) (string, error) {
	key, err := keyOf(words)
	if err != nil {
		return "", err
	}
	switch words[0] {
	case "make":
		return key.Issue(map[string]string{"sub": "ada"})
	case "read":
		var found struct {
			Sub string `json:"sub"`
		}
		err = key.Admit(words[2], &found, paseto.Leeway(0))
		return found.Sub, err
	case "tell":
		return tell(key)
	}
	return key.PASERK()
}

func main() {
	told, err := run(os.Args[1:])
	if err != nil {
		fmt.Fprintln(os.Stderr, err)
		os.Exit(1)
	}
	fmt.Println(told)
}
