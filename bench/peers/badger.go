// Badger: a transaction a put, with SyncWrites. It has the commands of peer.hh.
package main

import (
	"bufio"
	"bytes"
	"encoding/binary"
	"encoding/hex"
	"fmt"
	"log"
	"os"
	"strconv"
	"time"

	"github.com/dgraph-io/badger"
)

type block struct{ cid, data []byte }

func good(err error) {
	if err != nil {
		log.Fatal(err)
	}
}

func blocksOf(path string) (blocks []block) {
	text, err := os.ReadFile(path)
	good(err)
	for len(text) > 0 {
		end := 40 + binary.LittleEndian.Uint32(text[36:])
		blocks = append(blocks, block{text[:36], text[40:end]})
		text = text[end:]
	}
	return
}

func tell(start time.Time) {
	fmt.Fprintln(os.Stderr, time.Since(start).Seconds())
}

func main() {
	db, err := badger.Open(badger.DefaultOptions(os.Args[2]).WithSyncWrites(true).WithLogger(nil))
	good(err)
	defer db.Close()
	blocks := blocksOf(os.Args[3])
	if os.Args[1] == "put" {
		batch, err := strconv.Atoi(os.Args[4])
		good(err)
		start := time.Now()
		for len(blocks) > 0 {
			if batch > len(blocks) {
				batch = len(blocks)
			}
			good(db.Update(func(txn *badger.Txn) error {
				for _, block := range blocks[:batch] {
					if err := txn.Set(block.cid, block.data); err != nil {
						return err
					}
				}
				return nil
			}))
			blocks = blocks[batch:]
		}
		tell(start)
		return
	}
	// once to compare, and what that brings into memory is there when it is timed
	read(db, blocks, func(data []byte, block block) {
		if !bytes.Equal(data, block.data) {
			log.Fatal("another block")
		}
	})
	out := bufio.NewWriterSize(os.Stdout, 65536)
	var line []byte
	start := time.Now()
	read(db, blocks, func(data []byte, _ block) {
		if end := hex.EncodedLen(len(data)); end > len(line) {
			line = make([]byte, end)
		}
		out.WriteString("found ")
		out.Write(line[:hex.Encode(line, data)])
		out.WriteByte('\n')
	})
	good(out.Flush())
	tell(start)
}

func read(db *badger.DB, blocks []block, use func(data []byte, block block)) {
	good(db.View(func(txn *badger.Txn) error {
		for _, block := range blocks {
			item, err := txn.Get(block.cid)
			if err != nil {
				return err
			}
			if err := item.Value(func(data []byte) error { use(data, block); return nil }); err != nil {
				return err
			}
		}
		return nil
	}))
}
