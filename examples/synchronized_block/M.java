// May the reader print 1, and may it print 0?
class M {
    static int x;

    public static void main(String[] args) throws InterruptedException {
        Writer writer = new Writer();
        Reader reader = new Reader();
        writer.start();
        reader.start();
        writer.join();
        reader.join();
    }
}

class Writer extends Thread {
    public void run() {
        synchronized (M.class) {
            M.x = 1;
        }
    }
}

class Reader extends Thread {
    public void run() {
        synchronized (M.class) {
            System.out.println(M.x);
        }
    }
}
