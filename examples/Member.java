// A small member in plain Java: it logs on at the edge, buys 1 ABC at 50, asks for the market, and prints what comes.
//
//     java examples/Member.java PORT [SENDER [TARGET]]
//
// Where the edge asks for a password FIX_USERNAME and FIX_PASSWORD of the environment are written into the Logon. It ends
// with its standard input, and logs out then. Its numbers go on from one session to the next, and begin with 1 at
// midnight, UTC, as those of the edge's example: they stand in the file SENDER.numbers of the present folder. What it
// missed while it was away is sent again. Of its own messages none is: an order that was lost on its way was never sent,
// as far as the venue knows. The status is 1 where it isn't let in. Who has QuickFIX/J needs none of this:
// examples/quickfix.cfg are settings for its own engine.

import java.io.IOException;
import java.net.Socket;
import java.net.SocketTimeoutException;
import java.nio.charset.StandardCharsets;
import java.nio.file.Files;
import java.nio.file.Path;
import java.nio.file.StandardCopyOption;
import java.time.Instant;
import java.time.ZoneOffset;
import java.time.format.DateTimeFormatter;
import java.util.HashMap;
import java.util.Map;

public class Member {
    static final int HEARTBEAT = 30; // Seconds.
    static final DateTimeFormatter TIME = DateTimeFormatter.ofPattern("yyyyMMdd-HH:mm:ss.SSS").withZone(ZoneOffset.UTC);

    final Socket socket;
    final String sender, target;
    final Path file;
    int out = 1, in = 1; // The next number of each side.
    long sentAt = System.nanoTime();
    boolean hasAsked, isOn, isOver;
    String rest = "";

    Member(int port, String sender, String target) throws IOException {
        this.sender = sender;
        this.target = target;
        file = Path.of(sender + ".numbers");
        if (Files.exists(file) && isOfToday(Files.getLastModifiedTime(file).toInstant())) {
            String[] words = Files.readString(file).trim().split(" ");
            out = Integer.parseInt(words[0]);
            in = Integer.parseInt(words[1]);
        }
        socket = new Socket("127.0.0.1", port);
        socket.setSoTimeout(1000);
    }

    static boolean isOfToday(Instant it) {
        return TIME.format(it).startsWith(now().substring(0, 8));
    }

    /** What a Logon says of who comes, where the edge asks for that. */
    static String identity() {
        String name = System.getenv("FIX_USERNAME"), password = System.getenv("FIX_PASSWORD");
        return name == null ? "" : "553=" + name + "|554=" + (password == null ? "" : password) + "|";
    }

    static String now() {
        return TIME.format(Instant.now());
    }

    /** A message of these fields, which begin with MsgType, with bars in the place of the byte 01. */
    static byte[] framed(String body) {
        String text = body.replace('|', '\1');
        text = "8=FIX.4.4\1" + "9=" + text.length() + "\1" + text;
        int sum = 0;
        for (byte it : text.getBytes(StandardCharsets.US_ASCII)) sum += it;
        return (text + String.format("10=%03d\1", sum % 256)).getBytes(StandardCharsets.US_ASCII);
    }

    void write(String kind, String body, int number, String head) throws IOException {
        socket.getOutputStream().write(framed("35=" + kind + "|34=" + number + "|49=" + sender + "|52=" + now() + "|56="
            + target + "|" + head + body));
        sentAt = System.nanoTime();
    }

    /** Sends the next message. Its number is kept first, so that no number is given twice. */
    synchronized void send(String kind, String body) throws IOException {
        int number = out++;
        keep();
        write(kind, body, number, "");
    }

    void keep() throws IOException {
        Path fresh = Path.of(file + ".new");
        Files.writeString(fresh, out + " " + in + "\n");
        Files.move(fresh, file, StandardCopyOption.REPLACE_EXISTING, StandardCopyOption.ATOMIC_MOVE);
    }

    /** Buys 1 ABC at 50, for the day. Its name is never used again. */
    void order() throws IOException {
        String name = sender + "-" + System.currentTimeMillis();
        send("D", "11=" + name + "|21=1|38=1|40=2|44=50|54=1|55=ABC|59=0|60=" + now() + "|");
    }

    /** Asks for all prices of ABC and its last trade, and for what changes from then on. */
    void market() throws IOException {
        send("V", "262=market|263=1|264=0|265=1|267=3|269=0|269=1|269=2|146=1|55=ABC|");
    }

    /** Takes in what has come. The edge writes whole messages, which are right. */
    void read() throws IOException {
        byte[] piece = new byte[65536];
        int count;
        try {
            count = socket.getInputStream().read(piece);
        } catch (SocketTimeoutException nothing) {
            return;
        }
        isOver |= count < 0;
        rest += count > 0 ? new String(piece, 0, count, StandardCharsets.ISO_8859_1) : "";
        for (int end; (end = rest.indexOf("\1" + "10=")) >= 0 && rest.length() >= end + 8;) {
            String text = rest.substring(0, end + 8);
            rest = rest.substring(end + 8);
            take(text);
        }
    }

    static Map<String, String> fieldsOf(String text) {
        Map<String, String> fields = new HashMap<>();
        for (String it : text.split("\1")) fields.put(it.substring(0, it.indexOf('=')), it.substring(it.indexOf('=') + 1));
        return fields;
    }

    synchronized void take(String text) throws IOException {
        Map<String, String> it = fieldsOf(text);
        int number = Integer.parseInt(it.get("34"));
        boolean isFill = it.get("35").equals("4"), isReset = isFill && !"Y".equals(it.get("123"));
        if (isReset || number == in) {
            in = isFill ? Integer.parseInt(it.get("36")) : number + 1;
            keep();
            hasAsked = false;
            act(it, text.replace('\1', '|'));
        } else if (number > in) {
            missed(it);
        } else if (!"Y".equals(it.get("43"))) {
            throw new IOException("number " + number + " where " + in + " is next: " + text.replace('\1', '|'));
        } else if (!isOn) {
            System.out.println(text.replace('\1', '|')); // A word that isn't counted: it isn't let in.
        }
    }

    /** Something was missed: it is asked for once, and what has come is sent again behind it. */
    void missed(Map<String, String> it) throws IOException {
        if (it.get("35").equals("2")) fill(Integer.parseInt(it.get("7")));
        if (!hasAsked) {
            hasAsked = true;
            send("2", "7=" + in + "|16=0|");
        }
        begin(it);
    }

    void act(Map<String, String> it, String text) throws IOException {
        String kind = it.get("35");
        if (!"0124A".contains(kind)) System.out.println(text);
        if (kind.equals("1")) send("0", "112=" + it.get("112") + "|");
        if (kind.equals("2")) fill(Integer.parseInt(it.get("7")));
        isOver |= kind.equals("5");
        begin(it);
    }

    /** Behind the answer to its Logon it trades. */
    void begin(Map<String, String> it) throws IOException {
        if (!it.get("35").equals("A") || isOn) return;
        isOn = true;
        System.out.println("logged on");
        order();
        market();
        Thread end = new Thread(this::awaitEnd);
        end.setDaemon(true);
        end.start();
    }

    /** Says that none of its messages from this number on is sent again. */
    void fill(int first) throws IOException {
        write("4", "123=Y|36=" + out + "|", first, "43=Y|122=" + now() + "|");
    }

    /** Logs out with the end of standard input. */
    void awaitEnd() {
        try {
            while (System.in.read() >= 0) { }
            send("5", "");
        } catch (IOException gone) {
            isOver = true;
        }
    }

    void run() throws IOException {
        send("A", "98=0|108=" + HEARTBEAT + "|" + identity());
        while (!isOver) {
            read();
            if (isOn && System.nanoTime() - sentAt > HEARTBEAT * 500_000_000L) send("0", "");
        }
        if (!isOn) System.err.println("the Logon had no answer, and the connection has ended: is it the right password, name and hour?");
        System.exit(isOn ? 0 : 1);
    }

    public static void main(String[] words) throws IOException {
        if (words.length < 1 || words.length > 3) throw new IOException("words: PORT [SENDER [TARGET]]");
        String sender = words.length > 1 ? words[1] : "DESK-A", target = words.length > 2 ? words[2] : "GIKVAND";
        new Member(Integer.parseInt(words[0]), sender, target).run();
    }
}
