import java.io.IOException;
import java.net.Socket;

class Fetch {
    static void main(String[] args) throws IOException {
        Socket socket = new Socket("localhost", 80);
        socket.getInputStream();
        socket.close();
    }
}
