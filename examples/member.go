// A small member in plain Go: it logs on at the edge, buys 1 ABC at 50, asks for the market, and prints what comes.
//
//	go run examples/member.go PORT [SENDER [TARGET]]
//
// Where the edge asks for a password FIX_USERNAME and FIX_PASSWORD of the environment are written into the Logon. It ends
// with its standard input, and logs out then. Its numbers go on from one session to the next, and begin with 1 at
// midnight, UTC, as those of the edge's example: they stand in the file SENDER.numbers of the present folder. What it
// missed while it was away is sent again. Of its own messages none is: an order that was lost on its way was never sent,
// as far as the venue knows. The status is 1 where it isn't let in.
package main

import (
	"bufio"
	"fmt"
	"io"
	"net"
	"os"
	"strconv"
	"strings"
	"time"
)

const heartbeat = 30 * time.Second

// member is a session with the edge. One goroutine alone uses it.
type member struct {
	socket         net.Conn
	sender, target string
	out, in        int // The next number of each side.
	sentAt         time.Time
	hasAsked, isOn bool
	isOver         bool
}

func fail(why error) {
	if why != nil {
		fmt.Fprintln(os.Stderr, "member:", why)
		os.Exit(1)
	}
}

func now() string {
	return time.Now().UTC().Format("20060102-15:04:05.000")
}

// framed is a message of these fields, which begin with MsgType, with bars in the place of the byte 01.
func framed(body string) []byte {
	text := strings.ReplaceAll(body, "|", "\x01")
	text = fmt.Sprintf("8=FIX.4.4\x019=%d\x01%s", len(text), text)
	sum := 0
	for _, it := range []byte(text) {
		sum += int(it)
	}
	return []byte(text + fmt.Sprintf("10=%03d\x01", sum%256))
}

func (m *member) file() string {
	return m.sender + ".numbers"
}

// read takes the numbers out of their file, where there is one of today.
func (m *member) read() {
	const day = "20060102"
	about, err := os.Stat(m.file())
	if err != nil || about.ModTime().UTC().Format(day) != time.Now().UTC().Format(day) {
		return
	}
	if text, err := os.ReadFile(m.file()); err == nil {
		_, err = fmt.Sscan(string(text), &m.out, &m.in)
		fail(err)
	}
}

func (m *member) keep() {
	fail(os.WriteFile(m.file()+".new", []byte(fmt.Sprintf("%d %d\n", m.out, m.in)), 0o600))
	fail(os.Rename(m.file()+".new", m.file()))
}

func (m *member) write(kind, body string, number int, head string) {
	_, err := m.socket.Write(framed(fmt.Sprintf("35=%s|34=%d|49=%s|52=%s|56=%s|%s%s", kind, number, m.sender, now(),
		m.target, head, body)))
	fail(err)
	m.sentAt = time.Now()
}

// send sends the next message. Its number is kept first, so that no number is given twice.
func (m *member) send(kind, body string) {
	number := m.out
	m.out++
	m.keep()
	m.write(kind, body, number, "")
}

// identity is what a Logon says of who comes, where the edge asks for that.
func identity() string {
	if name := os.Getenv("FIX_USERNAME"); name != "" {
		return fmt.Sprintf("553=%s|554=%s|", name, os.Getenv("FIX_PASSWORD"))
	}
	return ""
}

// order buys 1 ABC at 50, for the day. Its name is never used again.
func (m *member) order() {
	m.send("D", fmt.Sprintf("11=%s-%d|21=1|38=1|40=2|44=50|54=1|55=ABC|59=0|60=%s|", m.sender, time.Now().UnixNano(), now()))
}

// market asks for all prices of ABC and its last trade, and for what changes from then on.
func (m *member) market() {
	m.send("V", "262=market|263=1|264=0|265=1|267=3|269=0|269=1|269=2|146=1|55=ABC|")
}

func fieldsOf(text string) map[string]string {
	fields := map[string]string{}
	for _, it := range strings.Split(strings.TrimSuffix(text, "\x01"), "\x01") {
		if at := strings.IndexByte(it, '='); at >= 0 {
			fields[it[:at]] = it[at+1:]
		}
	}
	return fields
}

func numberOf(text string) int {
	number, err := strconv.Atoi(text)
	fail(err)
	return number
}

func (m *member) take(text string) {
	it := fieldsOf(text)
	number, isFill := numberOf(it["34"]), it["35"] == "4"
	switch {
	case number == m.in || isFill && it["123"] != "Y":
		m.in = number + 1
		if isFill {
			m.in = numberOf(it["36"])
		}
		m.keep()
		m.hasAsked = false
		m.act(it, strings.ReplaceAll(text, "\x01", "|"))
	case number > m.in:
		m.missed(it)
	case it["43"] != "Y":
		fail(fmt.Errorf("number %d where %d is next: %q", number, m.in, text))
	case !m.isOn:
		fmt.Println(strings.ReplaceAll(text, "\x01", "|")) // A word that isn't counted: it isn't let in.
	}
}

// missed asks once for what was missed; what has come is sent again behind it.
func (m *member) missed(it map[string]string) {
	if it["35"] == "2" {
		m.fill(numberOf(it["7"]))
	}
	if !m.hasAsked {
		m.hasAsked = true
		m.send("2", fmt.Sprintf("7=%d|16=0|", m.in))
	}
	m.begin(it)
}

func (m *member) act(it map[string]string, text string) {
	kind := it["35"]
	if !strings.Contains("0124A", kind) {
		fmt.Println(text)
	}
	switch kind {
	case "1":
		m.send("0", "112="+it["112"]+"|")
	case "2":
		m.fill(numberOf(it["7"]))
	case "5":
		m.isOver = true
	}
	m.begin(it)
}

// begin lets it trade behind the answer to its Logon.
func (m *member) begin(it map[string]string) {
	if it["35"] != "A" || m.isOn {
		return
	}
	m.isOn = true
	fmt.Println("logged on")
	m.order()
	m.market()
}

// fill says that none of its messages from this number on is sent again.
func (m *member) fill(first int) {
	m.write("4", fmt.Sprintf("123=Y|36=%d|", m.out), first, fmt.Sprintf("43=Y|122=%s|", now()))
}

// messages reads the edge's messages, which are whole and right, until the connection ends.
func messages(from io.Reader, into chan<- string) {
	defer close(into)
	in, text := bufio.NewReader(from), ""
	for {
		field, err := in.ReadString('\x01')
		if err != nil {
			return
		}
		text += field
		if strings.HasPrefix(field, "10=") {
			into <- text
			text = ""
		}
	}
}

func (m *member) run() {
	came, end := make(chan string), make(chan bool)
	go messages(m.socket, came)
	go func() {
		_, _ = io.Copy(io.Discard, os.Stdin)
		end <- true
	}()
	m.send("A", fmt.Sprintf("98=0|108=%d|%s", int(heartbeat.Seconds()), identity()))
	for !m.isOver {
		var ends chan bool // Who isn't logged on yet can't log out.
		if m.isOn {
			ends = end
		}
		select {
		case text, is := <-came:
			if !is {
				return
			}
			m.take(text)
		case <-ends:
			m.send("5", "")
		case <-time.After(time.Second):
			if m.isOn && time.Since(m.sentAt) > heartbeat/2 {
				m.send("0", "")
			}
		}
	}
}

func main() {
	words := os.Args[1:]
	if len(words) < 1 || len(words) > 3 {
		fail(fmt.Errorf("words: PORT [SENDER [TARGET]]"))
	}
	words = append(words, []string{"DESK-A", "GIKVAND"}[len(words)-1:]...)
	socket, err := net.Dial("tcp", "127.0.0.1:"+words[0])
	fail(err)
	m := &member{socket: socket, sender: words[1], target: words[2], out: 1, in: 1, sentAt: time.Now()}
	m.read()
	m.run()
	if !m.isOn {
		fail(fmt.Errorf("the Logon had no answer, and the connection has ended: is it the right password, name and hour?"))
	}
}
