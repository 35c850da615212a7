/* Functions that compiled code calls by name. A WebAssembly module has no C library and no libgcc. */
typedef unsigned long u64;
typedef unsigned __int128 u128;

static u128 joined(u64 high, u64 low) { return ((u128)high << 64) | low; }

int memcmp(const void *left, const void *right, u64 length) {
    const unsigned char *a = left, *b = right;
    for (u64 i = 0; i < length; i++)
        if (a[i] != b[i]) return a[i] - b[i];
    return 0;
}

u128 __multi3(u128 left, u128 right) {
    u64 a = (u64)left, b = (u64)right;
    u64 a0 = a & 0xffffffff, a1 = a >> 32, b0 = b & 0xffffffff, b1 = b >> 32;
    u64 p00 = a0 * b0, p01 = a0 * b1, p10 = a1 * b0;
    u64 middle = (p00 >> 32) + (p01 & 0xffffffff) + (p10 & 0xffffffff);
    u64 high = a1 * b1 + (p01 >> 32) + (p10 >> 32) + (middle >> 32);
    high += a * (u64)(right >> 64) + (u64)(left >> 64) * b;
    return joined(high, (p00 & 0xffffffff) | (middle << 32));
}

u128 __lshrti3(u128 value, int by) {
    u64 high = (u64)(value >> 64), low = (u64)value;
    if (by & 64) return joined(0, high >> (by & 63));
    return by ? joined(high >> by, (low >> by) | (high << (64 - by))) : value;
}

u128 __ashlti3(u128 value, int by) {
    u64 high = (u64)(value >> 64), low = (u64)value;
    if (by & 64) return joined(low << (by & 63), 0);
    return by ? joined((high << by) | (low >> (64 - by)), low << by) : value;
}
