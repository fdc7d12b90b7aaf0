import java.io.IOException;
import java.net.Socket;

class Ensures {
    @EnsuresCalledMethods(value = "#1", methods = "close")
    static void end(Socket socket, boolean now) throws IOException {
        socket.close();
    }
}
