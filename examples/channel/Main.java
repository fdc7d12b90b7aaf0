package app;

import java.io.IOException;

class Main {
    static void main(String[] args) throws IOException {
        Channel channel = new Channel("house");
        try {
            channel.say("hello");
        } finally {
            channel.end();
        }
    }
}
