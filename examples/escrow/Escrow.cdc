import Coin from 0x1

// A deal holds coins until one of two rights is used: Release pays the seller, Refund pays the buyer. Nobody else can be paid.
access(all) contract Escrow {

    access(all) entitlement Release
    access(all) entitlement Refund

    access(all) event Opening(deal: UInt64, amount: UFix64)
    access(all) event Payment(deal: UInt64, amount: UFix64, account: Address, isRefund: Bool)

    access(all) resource Deal {
        access(self) var funds: @Coin.Vault?
        access(self) let buyer: Capability<&{Coin.Receiver}>
        access(self) let seller: Capability<&{Coin.Receiver}>

        init(funds: @Coin.Vault, buyer: Capability<&{Coin.Receiver}>, seller: Capability<&{Coin.Receiver}>) {
            pre {
                funds.balance > 0.0: "there is nothing to hold"
                buyer.check(): "the buyer has no vault"
                seller.check(): "the seller has no vault"
            }
            self.funds <- funds
            self.buyer = buyer
            self.seller = seller
            emit Opening(deal: self.uuid, amount: self.amount())
        }

        // How much is held.
        access(all) view fun amount(): UFix64 {
            return self.funds?.balance ?? 0.0
        }

        access(Release) fun release() {
            self.pay(self.seller, isRefund: false)
        }

        access(Refund) fun refund() {
            self.pay(self.buyer, isRefund: true)
        }

        access(self) fun pay(_ to: Capability<&{Coin.Receiver}>, isRefund: Bool) {
            pre { self.funds != nil: "the deal is closed" }
            post { self.funds == nil: "the deal stays open" }
            let receiver = to.borrow() ?? panic("the vault isn't there any more")
            let funds <- self.funds <- nil
            let vault <- funds ?? panic("the deal is closed")
            emit Payment(deal: self.uuid, amount: vault.balance, account: to.address, isRefund: isRefund)
            receiver.deposit(from: <-vault)
        }
    }

    access(all) fun open(
        funds: @Coin.Vault,
        buyer: Capability<&{Coin.Receiver}>,
        seller: Capability<&{Coin.Receiver}>
    ): @Deal {
        return <-create Deal(funds: <-funds, buyer: buyer, seller: seller)
    }
}
