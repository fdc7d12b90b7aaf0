import java.io.IOException;
import java.net.Socket;

class Throw {
    static void main(String[] args) throws IOException {
        try (Socket socket = new Socket("localhost", 80)) {
            socket.getInputStream();
        }
    }
}
