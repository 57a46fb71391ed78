// May both threads print 0?
class M {
    static int x;
    static int y;

    public static void main(String[] args) {
        Thread first = new Thread(new First());
        Thread second = new Thread(new Second());
        first.start();
        second.start();
    }
}

class First implements Runnable {
    public void run() {
        M.x = 1;
        System.out.println(M.y);
    }
}

class Second implements Runnable {
    public void run() {
        M.y = 1;
        System.out.println(M.x);
    }
}
