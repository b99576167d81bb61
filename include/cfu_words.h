/*
 * cfu_words.h: words for the numbers of cfu.h, for people. Made by tools/words.py from include/words.txt: change that table, not this.
 *
 * Plain C, not proved: nothing here judges or changes anything. C99, also C++; nothing is linked, and what is not called takes no memory.
 */
#ifndef CFU_WORDS_H
#define CFU_WORDS_H

#include "cfu.h"

/* What a number is: what a call returned (cfu_step.number and its like), how far a host is (cfu_report.ending), the status of an offer reply, the
 * reason of a REJECT, the status of a content reply, the code of an information or of an extended packet. */
#define CFU_OF_CALL 0
#define CFU_OF_ENDING 1
#define CFU_OF_OFFER_STATUS 2
#define CFU_OF_REASON 3
#define CFU_OF_CONTENT_STATUS 4
#define CFU_OF_INFORMATION 5
#define CFU_OF_EXTENDED 6

/* The name of a number of a kind, as "B7" or "SKIP"; "unknown" for a number or a kind that cfu.h has not. */
static inline const char *cfu_name(uint32_t kind, uint32_t number)
{
    switch (kind) {
    case CFU_OF_CALL:
        switch (number) {
        case CFU_SERVED:
            return "SERVED";
        case CFU_C1:
            return "C1";
        case CFU_C2:
            return "C2";
        case CFU_C3:
            return "C3";
        case CFU_C4:
            return "C4";
        case CFU_S1:
            return "S1";
        case CFU_S2:
            return "S2";
        case CFU_S3:
            return "S3";
        case CFU_S4:
            return "S4";
        case CFU_S5:
            return "S5";
        case CFU_D1:
            return "D1";
        case CFU_D2:
            return "D2";
        case CFU_D3:
            return "D3";
        case CFU_P1:
            return "P1";
        case CFU_P2:
            return "P2";
        case CFU_N1:
            return "N1";
        case CFU_B1:
            return "B1";
        case CFU_B2:
            return "B2";
        case CFU_B3:
            return "B3";
        case CFU_B4:
            return "B4";
        case CFU_B5:
            return "B5";
        case CFU_B6:
            return "B6";
        case CFU_B7:
            return "B7";
        case CFU_B8:
            return "B8";
        case CFU_W1:
            return "W1";
        case CFU_W2:
            return "W2";
        case CFU_W3:
            return "W3";
        case CFU_W4:
            return "W4";
        case CFU_W5:
            return "W5";
        case CFU_W6:
            return "W6";
        case CFU_W7:
            return "W7";
        case CFU_W8:
            return "W8";
        }
        break;
    case CFU_OF_ENDING:
        switch (number) {
        case CFU_RUNNING:
            return "RUNNING";
        case CFU_DONE:
            return "DONE";
        case CFU_H1:
            return "H1";
        case CFU_H2:
            return "H2";
        case CFU_H3:
            return "H3";
        case CFU_H4:
            return "H4";
        }
        break;
    case CFU_OF_OFFER_STATUS:
        switch (number) {
        case CFU_OFFER_SKIP:
            return "SKIP";
        case CFU_OFFER_ACCEPT:
            return "ACCEPT";
        case CFU_OFFER_REJECT:
            return "REJECT";
        case CFU_OFFER_BUSY:
            return "BUSY";
        case CFU_OFFER_READY:
            return "READY";
        case CFU_OFFER_UNSUPPORTED:
            return "UNSUPPORTED";
        }
        break;
    case CFU_OF_REASON:
        switch (number) {
        case CFU_REJECT_OLD_FW:
            return "OLD_FW";
        case CFU_REJECT_INV_COMPONENT:
            return "INV_COMPONENT";
        case CFU_REJECT_SWAP_PENDING:
            return "SWAP_PENDING";
        case CFU_REJECT_WRONG_PROTOCOL:
            return "WRONG_PROTOCOL";
        case CFU_REJECT_WRONG_SEGMENT:
            return "WRONG_SEGMENT";
        case CFU_REJECT_WRONG_VARIANT:
            return "WRONG_VARIANT";
        }
        break;
    case CFU_OF_CONTENT_STATUS:
        switch (number) {
        case CFU_SUCCESS:
            return "SUCCESS";
        case CFU_ERROR_VERIFY:
            return "ERROR_VERIFY";
        case CFU_ERROR_CRC:
            return "ERROR_CRC";
        case CFU_ERROR_VERSION:
            return "ERROR_VERSION";
        case CFU_ERROR_INVALID_ADDR:
            return "ERROR_INVALID_ADDR";
        case CFU_ERROR_NO_OFFER:
            return "ERROR_NO_OFFER";
        case CFU_ERROR_INVALID:
            return "ERROR_INVALID";
        }
        break;
    case CFU_OF_INFORMATION:
        switch (number) {
        case CFU_INFO_START_ENTIRE_TRANSACTION:
            return "START_ENTIRE_TRANSACTION";
        case CFU_INFO_START_OFFER_LIST:
            return "START_OFFER_LIST";
        case CFU_INFO_END_OFFER_LIST:
            return "END_OFFER_LIST";
        }
        break;
    case CFU_OF_EXTENDED:
        switch (number) {
        case CFU_NOTIFY_ON_READY:
            return "NOTIFY_ON_READY";
        }
        break;
    }
    return "unknown";
}

/* What a number of a kind says, as a part of a sentence without its capital and its full stop; "unknown" as above. */
static inline const char *cfu_sentence(uint32_t kind, uint32_t number)
{
    switch (kind) {
    case CFU_OF_CALL:
        switch (number) {
        case CFU_SERVED:
            return "the call was carried out";
        case CFU_C1:
            return "a record is not of its size, or contents of a bundle are not of their size or none that a check leaves";
        case CFU_C2:
            return "a list, or data to be read, is not of its size";
        case CFU_C3:
            return "a buffer for what comes out is not of its size";
        case CFU_C4:
            return "there is no component or entry at this place";
        case CFU_S1:
            return "the staging memory is over 65,536 bytes";
        case CFU_S2:
            return "a device has 1 to 7 components";
        case CFU_S3:
            return "a component's id is not 1 to 223, or two have the same";
        case CFU_S4:
            return "a region is under 8 bytes, reaches past the staging memory, or overlaps another";
        case CFU_S5:
            return "a floor has a variant other than 0, where only major and minor count";
        case CFU_D1:
            return "the device's record breaks its rules";
        case CFU_D2:
            return "the staging memory has not the length that it had at set-up";
        case CFU_D3:
            return "the packet has not the length of its channel: 16 bytes for offers, 60 for content";
        case CFU_P1:
            return "the packet has not the length of its kind";
        case CFU_P2:
            return "a value does not fit its field, or is none that this packet may have";
        case CFU_N1:
            return "the host's record breaks its rules, or does not fit the bundle";
        case CFU_B1:
            return "a bundle has 8 to 65,536 bytes";
        case CFU_B2:
            return "the head is not that of a bundle: byte 1 must be 1, bytes 2 to 7 zero";
        case CFU_B3:
            return "a bundle has 1 to 7 offers";
        case CFU_B4:
            return "the file ends inside the table of offers";
        case CFU_B5:
            return "the offer's bytes 0, 1, 3 and 13 must be zero, byte 12 must be 2, and the id 1 to 223";
        case CFU_B6:
            return "an earlier entry offers the same component";
        case CFU_B7:
            return "the body does not start where the table or the body before it ends, or the last does not end with the file";
        case CFU_B8:
            return "the body is empty, or has a record that is cut, empty or over 52 bytes";
        case CFU_W1:
            return "the list is not 1 to 7 whole entries";
        case CFU_W2:
            return "the offer's bytes 0, 1, 3 and 13 must be zero, byte 12 must be 2, and the id 1 to 223";
        case CFU_W3:
            return "an earlier offer is for the same component";
        case CFU_W4:
            return "the image is not 8 to 65,536 bytes, or ends past the images";
        case CFU_W5:
            return "the image's CRC is wrong";
        case CFU_W6:
            return "the image is of another version or for another component than its offer";
        case CFU_W7:
            return "the bundle is over 65,536 bytes";
        case CFU_W8:
            return "the output is too short for the bundle";
        }
        break;
    case CFU_OF_ENDING:
        switch (number) {
        case CFU_RUNNING:
            return "the update goes on";
        case CFU_DONE:
            return "the host is done: the report says which offers were completed";
        case CFU_H1:
            return "the device refused a block or its image";
        case CFU_H2:
            return "the reply is not 16 bytes, or its token or sequence is not the one awaited";
        case CFU_H3:
            return "the reply has a status that does not answer what was sent";
        case CFU_H4:
            return "the device was busy nine times for one offer in one pass";
        }
        break;
    case CFU_OF_OFFER_STATUS:
        switch (number) {
        case CFU_OFFER_SKIP:
            return "its need is not met";
        case CFU_OFFER_ACCEPT:
            return "accepted";
        case CFU_OFFER_REJECT:
            return "rejected, for the reason beside it";
        case CFU_OFFER_BUSY:
            return "the device is busy";
        case CFU_OFFER_READY:
            return "the device is no longer busy";
        case CFU_OFFER_UNSUPPORTED:
            return "the device does not know the packet";
        }
        break;
    case CFU_OF_REASON:
        switch (number) {
        case CFU_REJECT_OLD_FW:
            return "not newer than what runs, or below the floor";
        case CFU_REJECT_INV_COMPONENT:
            return "no such component on this platform";
        case CFU_REJECT_SWAP_PENDING:
            return "the component awaits a reset";
        case CFU_REJECT_WRONG_PROTOCOL:
            return "the protocol is not 2";
        case CFU_REJECT_WRONG_SEGMENT:
            return "the segment is not 0";
        case CFU_REJECT_WRONG_VARIANT:
            return "another variant runs";
        }
        break;
    case CFU_OF_CONTENT_STATUS:
        switch (number) {
        case CFU_SUCCESS:
            return "taken";
        case CFU_ERROR_VERIFY:
            return "the image is for another component";
        case CFU_ERROR_CRC:
            return "the image's CRC is wrong";
        case CFU_ERROR_VERSION:
            return "the image is of another variant than what runs, older than that, or below the floor";
        case CFU_ERROR_INVALID_ADDR:
            return "the block reaches past the region";
        case CFU_ERROR_NO_OFFER:
            return "no offer was accepted";
        case CFU_ERROR_INVALID:
            return "the block's length, flags or sequence are wrong";
        }
        break;
    case CFU_OF_INFORMATION:
        switch (number) {
        case CFU_INFO_START_ENTIRE_TRANSACTION:
            return "start entire transaction";
        case CFU_INFO_START_OFFER_LIST:
            return "start offer list";
        case CFU_INFO_END_OFFER_LIST:
            return "end offer list";
        }
        break;
    case CFU_OF_EXTENDED:
        switch (number) {
        case CFU_NOTIFY_ON_READY:
            return "notify on ready";
        }
        break;
    }
    return "unknown";
}

/* What a person can do about it; an empty text where the table has nothing. */
static inline const char *cfu_advice(uint32_t kind, uint32_t number)
{
    switch (kind) {
    case CFU_OF_CALL:
        switch (number) {
        case CFU_W1:
            return "offer at least one component, and put what is over 7 into a second bundle, needed components into the first";
        case CFU_W2:
            return "give the component's id as the device has it, 1 to 223, and build the offer with segment, I, V and token 0";
        case CFU_W3:
            return "see whether each offer has its own component's id, and offer each component once";
        case CFU_W4:
            return "give the image of the component's whole region, as long as the region is";
        case CFU_W5:
            return "take the file from the build again; ask for the stamp only for this component's own file, and only where its build leaves bytes 0 to 4 and the last two free";
        case CFU_W6:
            return "take the image that was built for this component and version, or correct the offer";
        case CFU_W7:
            return "put the offers into two bundles, needed components into the first; an image that is too large alone fits only where it has longer runs of 0xFF";
        case CFU_W8:
            return "lend 65,536 bytes, which are never too few";
        }
        break;
    }
    return "";
}

#endif
