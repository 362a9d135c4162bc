// Badger: the sections of a CAR in the groups in which SplitStore puts them, a transaction a group, with SyncWrites. It has
// the command of importing.hh; blocks are hashed by crypto/sha256 and golang.org/x/crypto/blake2b.
package main

import (
	"bufio"
	"bytes"
	"crypto/sha256"
	"encoding/binary"
	"errors"
	"fmt"
	"io"
	"log"
	"os"
	"time"

	"github.com/dgraph-io/badger"
	"golang.org/x/crypto/blake2b"
)

const (
	group      = 256
	groupBytes = 4 << 20
)

var errNoCID = errors.New("no CID")

type block struct{ cid, data []byte }

func good(err error) {
	if err != nil {
		log.Fatal(err)
	}
}

// The next header or section; io.EOF at the end of the file.
func next(in *bufio.Reader) ([]byte, error) {
	length, err := binary.ReadUvarint(in)
	if err != nil {
		return nil, err
	}
	if length > 8<<20 {
		return nil, errors.New("a section that is too large")
	}
	body := make([]byte, length)
	_, err = io.ReadFull(in, body)
	return body, err
}

func matches(code uint64, digest, data []byte) bool {
	switch code {
	case 0x12:
		made := sha256.Sum256(data)
		return bytes.Equal(made[:], digest)
	case 0xb220:
		made := blake2b.Sum256(data)
		return bytes.Equal(made[:], digest)
	}
	return false
}

// The block of a section, which is hashed if that is asked for.
func blockIn(body []byte, hashed bool) (block, error) {
	var numbers [4]uint64
	at := 0
	for i := range numbers {
		number, length := binary.Uvarint(body[at:])
		if length <= 0 {
			return block{}, errNoCID
		}
		numbers[i] = number
		at += length
	}
	end := at + int(numbers[3])
	if numbers[0] != 1 || numbers[3] > 64 || end > len(body) {
		return block{}, errNoCID
	}
	if hashed && !matches(numbers[2], body[at:end], body[end:]) {
		return block{}, errors.New("a block that is not its CID's")
	}
	return block{body[:end], body[end:]}, nil
}

func put(db *badger.DB, blocks []block) {
	good(db.Update(func(txn *badger.Txn) error {
		for _, block := range blocks {
			if err := txn.Set(block.cid, block.data); err != nil {
				return err
			}
		}
		return nil
	}))
}

func main() {
	if len(os.Args) != 5 {
		log.Fatal("import, a folder, a CAR, and plain or hashed")
	}
	db, err := badger.Open(badger.DefaultOptions(os.Args[2]).WithSyncWrites(true).WithLogger(nil))
	good(err)
	defer db.Close()
	start := time.Now()
	file, err := os.Open(os.Args[3])
	good(err)
	in := bufio.NewReaderSize(file, 65536)
	_, err = next(in)
	good(err)
	var blocks []block
	size, count := 0, 0
	for ; ; count++ {
		body, err := next(in)
		if err == io.EOF {
			break
		}
		good(err)
		block, err := blockIn(body, os.Args[4] == "hashed")
		good(err)
		if len(blocks) > 0 && (len(blocks) == group || size+len(body) > groupBytes) {
			put(db, blocks)
			blocks, size = nil, 0
		}
		blocks = append(blocks, block)
		size += len(body)
	}
	if len(blocks) > 0 {
		put(db, blocks)
	}
	fmt.Fprintln(os.Stderr, time.Since(start).Seconds())
	fmt.Println(count)
}
