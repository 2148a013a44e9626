// Prints the messages of a stream of a feed, by their numbers (FEED.md):
//
//	go mod init feed_reader && go get github.com/nats-io/nats.go@v1.31.0
//	go run feed_reader.go HOST:PORT USER PASSWORDS CA.PEM venue_NAME_events 1 [once]
//
// from that number on, each once and in order. It goes on as the stream grows, or ends where that ends with once.
package main

import (
	"bufio"
	"errors"
	"fmt"
	"log"
	"os"
	"strconv"
	"strings"
	"time"

	"github.com/nats-io/nats.go"
)

// passwordOf gives the password of a user, of a file of lines USER:PASSWORD.
func passwordOf(path, user string) string {
	data, err := os.ReadFile(path)
	if err != nil {
		log.Fatal(err)
	}
	for _, line := range strings.Split(string(data), "\n") {
		if password, is := strings.CutPrefix(line, user+":"); is {
			return password
		}
	}
	log.Fatalf("%s has no line of %s", path, user)
	return ""
}

func main() {
	log.SetFlags(0)
	log.SetPrefix("feed_reader: ")
	once := len(os.Args) == 8 && os.Args[7] == "once"
	if len(os.Args) != 7 && !once {
		log.Fatal("usage: feed_reader HOST:PORT USER PASSWORDS CA.PEM STREAM NUMBER [once]")
	}
	place, user, passwords, authority, stream := os.Args[1], os.Args[2], os.Args[3], os.Args[4], os.Args[5]
	next, err := strconv.ParseUint(os.Args[6], 10, 64)
	if err != nil {
		log.Fatal(err)
	}
	connection, err := nats.Connect("tls://"+place, nats.UserInfo(user, passwordOf(passwords, user)),
		nats.RootCAs(authority), nats.MaxReconnects(-1))
	if err != nil {
		log.Fatal(err)
	}
	defer connection.Close()
	streams, err := connection.JetStream()
	if err != nil {
		log.Fatal(err)
	}
	out := bufio.NewWriter(os.Stdout)
	for {
		message, err := streams.GetMsg(stream, next, nats.DirectGet())
		switch {
		case err == nil && (message.Sequence != next || message.Header.Get("Nats-Stream") != stream): // It answers somebody else.
		case err == nil:
			fmt.Fprintf(out, "%s\n", message.Data)
			next++
		case errors.Is(err, nats.ErrMsgNotFound): // The stream hasn't got the message yet.
			if out.Flush() != nil || once {
				return
			}
			time.Sleep(50 * time.Millisecond)
		default: // The servers don't answer now.
			log.Printf("%d: %v", next, err)
			time.Sleep(time.Second)
		}
	}
}
