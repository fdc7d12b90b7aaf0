import java.io.IOException;
import java.net.Socket;

class Twice {
    static void both(@Owning Socket first, @Owning Socket second) throws IOException {
        try {
            first.close();
        } finally {
            second.close();
        }
    }

    static void main(String[] args) throws IOException {
        Socket socket = new Socket("localhost", 80);
        both(socket, socket);
    }
}
