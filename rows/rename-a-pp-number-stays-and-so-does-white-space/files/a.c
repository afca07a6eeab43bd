int  aa=0x1;
	extern int aa ;