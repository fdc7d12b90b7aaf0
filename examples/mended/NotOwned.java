import java.io.IOException;
import java.net.Socket;

class NotOwned {
    static void take(@Owning Socket socket) throws IOException {
        socket.close();
    }

    static void lend(@Owning Socket socket) throws IOException {
        take(socket);
    }
}
