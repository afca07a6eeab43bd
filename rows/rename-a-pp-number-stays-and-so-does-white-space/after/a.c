int  b=0x1;
	extern int b ;