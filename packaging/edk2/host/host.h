/* What EDK II's build would define for each file of the library: its settings, and no assertions. */
#define MDEPKG_NDEBUG                                   1
#define _PCD_GET_MODE_32_PcdMaximumDevicePathNodeCount  0
#define _PCD_GET_MODE_32_PcdMaximumUnicodeStringLength  1000000
#define _PCD_GET_MODE_32_PcdMaximumAsciiStringLength    1000000
#define _PCD_GET_MODE_32_PcdMaximumLinkedListLength     1000000
#define _PCD_GET_MODE_BOOL_PcdVerifyNodeInList          0
