package paseto

import (
	"encoding/json"
	"fmt"
	"os"
	"path/filepath"
	"strings"
	"sync"
)

// KeyRing is keys by id. The footer of a token names one of them, and only that key is tried. Its zero value is an empty ring,
// which several goroutines may use and change at once.
type KeyRing struct {
	lock sync.RWMutex
	keys map[string]pair
}

// pair is a key, and the one that reads what it makes.
type pair struct {
	key, reader Key
}

// ReadKeyRing reads the keys of a folder's files, PASERK or PEM, by their PASERK ids. An error names the file that is no key.
// Folders in it, and names that begin with a dot, are passed over.
func ReadKeyRing(folder string) (*KeyRing, error) {
	entries, err := os.ReadDir(folder)
	if err != nil {
		return nil, err
	}
	ring := &KeyRing{}
	for _, entry := range entries {
		path := filepath.Join(folder, entry.Name())
		about, err := os.Stat(path)
		if err != nil {
			return nil, err
		}
		if strings.HasPrefix(entry.Name(), ".") || about.IsDir() {
			continue
		}
		text, err := os.ReadFile(path)
		if err != nil {
			return nil, err
		}
		key, err := ParseKey(text)
		if err == nil {
			_, err = ring.Add(key)
		}
		if err != nil {
			return nil, fmt.Errorf("%s: %w", path, err)
		}
	}
	return ring, nil
}

// Add adds a key under its PASERK id, and returns the id. A private key issues tokens, and its public key admits them: its id is
// that of the public key.
func (r *KeyRing) Add(key Key) (string, error) {
	reader, err := key.reader()
	if err != nil {
		return "", err
	}
	id, err := reader.ID()
	if err != nil {
		return "", err
	}
	return id, r.AddAs(id, key)
}

// AddAs adds a key under an id of the caller's.
func (r *KeyRing) AddAs(id string, key Key) error {
	reader, err := key.reader()
	if err != nil {
		return err
	}
	if _, err = textOf(id, "an id"); err != nil {
		return err
	}
	r.lock.Lock()
	defer r.lock.Unlock()
	if r.keys == nil {
		r.keys = map[string]pair{}
	}
	r.keys[id] = pair{key, reader}
	return nil
}

// Remove removes the key of an id, if there is one.
func (r *KeyRing) Remove(id string) {
	r.lock.Lock()
	defer r.lock.Unlock()
	delete(r.keys, id)
}

// Replace puts the keys of another ring in the place of these, all at once, as after a rotation.
func (r *KeyRing) Replace(with *KeyRing) {
	with.lock.RLock()
	keys := make(map[string]pair, len(with.keys))
	for id, found := range with.keys {
		keys[id] = found
	}
	with.lock.RUnlock()
	r.lock.Lock()
	defer r.lock.Unlock()
	r.keys = keys
}

// Issue makes a token under the key of an id, as Key.Issue does; its footer names the key.
func (r *KeyRing) Issue(id string, claims any, options ...Option) (string, error) {
	found, isThere := r.find(id)
	if !isThere {
		return "", wrong("the ring has no key %q", id)
	}
	return found.key.Issue(claims, append(options[:len(options):len(options)], Footer(map[string]string{"kid": id}))...)
}

// Admit reads the claims of a token, as Key.Admit does, under the key that its footer names.
func (r *KeyRing) Admit(token string, into any, options ...Option) error {
	claims, err := r.admitted(token, options)
	if err != nil || into == nil {
		return err
	}
	return json.Unmarshal(claims, into)
}

func (r *KeyRing) admitted(token string, options []Option) (json.RawMessage, error) {
	made, err := settingsOf(options)
	if err != nil {
		return nil, err
	}
	if made.hasFooter {
		return nil, wrong("the footer of a token names the key of a ring")
	}
	if len(token) > made.longest {
		return nil, &Error{Reason: ErrTooLong}
	}
	footer, err := footerOf([]byte(token))
	if err != nil {
		return nil, err
	}
	// A map, since a struct would take the name in capitals too.
	var named map[string]any
	_ = json.Unmarshal(footer, &named)
	id, isText := named["kid"].(string)
	if !isText {
		return nil, &Error{Reason: ErrUnknownKey}
	}
	found, isThere := r.find(id)
	if !isThere {
		return nil, &Error{Reason: ErrUnknownKey}
	}
	return made.admitted(found.reader, token)
}

func (r *KeyRing) find(id string) (pair, bool) {
	r.lock.RLock()
	defer r.lock.RUnlock()
	found, isThere := r.keys[id]
	return found, isThere
}
