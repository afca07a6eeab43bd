/* Stands in for musl's header of <sys/io.h>, which has functions with machine code. They are declared alone. */
void outb(unsigned char value, unsigned short port);
void outw(unsigned short value, unsigned short port);
void outl(unsigned value, unsigned short port);
unsigned char inb(unsigned short port);
unsigned short inw(unsigned short port);
unsigned inl(unsigned short port);
void outsb(unsigned short port, const void *from, unsigned long count);
void outsw(unsigned short port, const void *from, unsigned long count);
void outsl(unsigned short port, const void *from, unsigned long count);
void insb(unsigned short port, void *to, unsigned long count);
void insw(unsigned short port, void *to, unsigned long count);
void insl(unsigned short port, void *to, unsigned long count);
