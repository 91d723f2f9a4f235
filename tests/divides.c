/* One function for each way to divide that tests/no-division must find. */
typedef unsigned int u32;
typedef unsigned long u64;
typedef unsigned __int128 u128;

u64 by_an_instruction(u64 a, u64 b) { return a / b; }
u128 by_a_routine(u128 a, u128 b) { return a % b; }
u64 by_an_upper_half(u64 a) { return a / 10; }
u32 by_an_upper_half_of_32_bits(u32 a) { return a / 10000; }
