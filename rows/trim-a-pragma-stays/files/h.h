#pragma pack(1)
typedef int t;
