import java.io.IOException;
import java.net.Socket;

class Lost {
    static void main(String[] args) throws IOException {
        new Socket("localhost", 80);
    }
}
