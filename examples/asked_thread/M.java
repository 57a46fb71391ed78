// May main print 0 after the thread was found ended?
class M {
    static int x;

    public static void main(String[] args) {
        Writer writer = new Writer();
        writer.start();
        if (!writer.isAlive()) {
            System.out.println(x);
        }
    }
}

class Writer extends Thread {
    public void run() {
        M.x = 1;
    }
}
